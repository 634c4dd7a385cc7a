--  P1: two stars are no operator, so no operand may begin with the second one.
--> spark check P1_exponentiation.adb
--> status 2
--> err P1_exponentiation.adb:8:12: P1 syntax
procedure Main is
   N : Integer;
begin
   N := 2 ** 3;
end Main;
