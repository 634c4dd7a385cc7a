--  L2: an identifier may not end with an underscore.
--> spark check L2_last_underscore.adb
--> status 2
--> err L2_last_underscore.adb:7:4: L2 bad identifier
with Ada.Unchecked_Deallocation;
procedure Main is
   N_ : Integer;
begin
   null;
end Main;
