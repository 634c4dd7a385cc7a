--  N2: two units have two names.
--> spark check N2_second_unit.adb
--> status 0
--> out accepted
package Other is
   N : Integer;
end Other;
with Ada.Unchecked_Deallocation;
procedure Main is
begin
   null;
end Main;
