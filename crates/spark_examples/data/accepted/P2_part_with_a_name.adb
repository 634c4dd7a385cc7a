--  P2: a part of the expression that was too deep has a name of its own.
--> spark check P2_part_with_a_name.adb
--> status 0
--> out accepted
procedure Main is
   Part, N : Integer;
begin
   Part := ((((((((((((((((((((((((((((((((1))))))))))))))))))))))))))))))));
   N := (((((((((((((((((((((((((((((((((Part)))))))))))))))))))))))))))))))));
end Main;
