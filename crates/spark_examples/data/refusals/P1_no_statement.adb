--  P1: at least one statement stands between begin and end.
--> spark check P1_no_statement.adb
--> status 2
--> err P1_no_statement.adb:8:1: P1 syntax
with Ada.Unchecked_Deallocation;
procedure Main is
begin
end Main;
