--  P2: the procedure and 63 parentheses are 64 open constructs, as many as there may be.
--> spark check P2_63_parentheses.adb
--> status 0
--> out accepted
procedure Main is
   N : Integer;
begin
   N := (((((((((((((((((((((((((((((((((((((((((((((((((((((((((((((((1)))))))))))))))))))))))))))))))))))))))))))))))))))))))))))))));
end Main;
