--  K1: an access type may designate any type.
--> spark check K1_access_to_boolean.adb
--> status 0
--> out accepted
with Ada.Unchecked_Deallocation;
procedure Main is
   type Flag_Ptr is access Boolean;
begin
   null;
end Main;
