--  P1: a sign stands at the front of a simple expression alone.
--> spark check P1_sign_after_operator.adb
--> status 2
--> err P1_sign_after_operator.adb:8:13: P1 syntax
procedure Main is
   N : Integer;
begin
   N := 1 + -2;
end Main;
