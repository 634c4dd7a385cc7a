--  K3: an instance has the designated type and the access type.
--> spark check K3_instance_for_other_type.adb
--> status 2
--> err K3_instance_for_other_type.adb:8:14: K3 wrong profile
with Ada.Unchecked_Deallocation;
procedure Main is
   type Link is access Integer;
   procedure Free is new Ada.Unchecked_Deallocation (Boolean, Link);
begin
   null;
end Main;
