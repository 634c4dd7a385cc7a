--  L2: an identifier may not have two adjacent underscores.
--> spark check L2_double_underscore.adb
--> status 2
--> err L2_double_underscore.adb:7:9: L2 bad identifier
with Ada.Unchecked_Deallocation;
procedure Main is
   type Int__Ptr is access Integer;
begin
   null;
end Main;
