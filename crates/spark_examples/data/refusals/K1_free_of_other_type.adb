--  K1: an instance frees objects of its own access type.
--> spark check K1_free_of_other_type.adb
--> status 2
--> err K1_free_of_other_type.adb:12:10: K1 wrong type
with Ada.Unchecked_Deallocation;
procedure Main is
   type Small is access Integer;
   type Large is access Integer;
   procedure Free is new Ada.Unchecked_Deallocation (Integer, Small);
   P : Large;
begin
   Free (P);
end Main;
