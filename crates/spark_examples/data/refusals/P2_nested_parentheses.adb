--  P2: the procedure and 64 parentheses are 65 open constructs.
--> spark check P2_nested_parentheses.adb
--> status 2
--> err P2_nested_parentheses.adb:8:72: P2 nesting too deep
procedure Main is
   N : Integer;
begin
   N := ((((((((((((((((((((((((((((((((((((((((((((((((((((((((((((((((1))))))))))))))))))))))))))))))))))))))))))))))))))))))))))))))));
end Main;
