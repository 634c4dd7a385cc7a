--  K1: an object is assigned an object of the same access type, and not of another one.
--> spark check K1_other_access_type.adb
--> status 2
--> err K1_other_access_type.adb:12:9: K1 wrong type
with Ada.Unchecked_Deallocation;
procedure Main is
   type Small is access Integer;
   type Large is access Integer;
   A : Small;
   P : Large;
begin
   A := P;
end Main;
