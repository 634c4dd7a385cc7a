--  O9: a procedure frees what a package object holds, by another name, and leaves it so.
--> spark check O9_package_object_freed.adb
--> status 1
--> err O9_package_object_freed.adb:19:4: O9 Store.Kept: moved
package Store is
   type Int_Ptr is access Integer;
   Kept : Int_Ptr := new Integer'(7);
   procedure Show;
end Store;
with Ada.Text_IO;
with Ada.Unchecked_Deallocation;
package body Store is
   procedure Free is new Ada.Unchecked_Deallocation (Integer, Int_Ptr);
   procedure Show is
      Mine : Int_Ptr := Kept;
   begin
      Ada.Text_IO.Put_Line (Integer'Image (Mine.all));
      Free (Mine);
   end Show;
end Store;
with Store; use Store;
procedure Main is
begin
   Show;
   Show;
end Main;
