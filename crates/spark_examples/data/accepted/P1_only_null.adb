--  P1: a procedure has at least one statement.
--> spark check P1_only_null.adb
--> status 0
--> out accepted
with Ada.Unchecked_Deallocation;
procedure Main is
begin
   null;
end Main;
