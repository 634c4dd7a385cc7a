--  P1: a chain has one logical operator, and another one asks for parentheses.
--> spark check P1_mixed_operators.adb
--> status 2
--> err P1_mixed_operators.adb:9:25: P1 syntax
procedure Main is
   N : Integer := 1;
   B : Boolean;
begin
   B := N = 1 and N = 2 or N = 3;
end Main;
