--  O9: a procedure may not end while a package object that it moved away has no value.
--> spark check O9_package_object.adb
--> status 1
--> err O9_package_object.adb:18:4: O9 Store.Kept: moved
package Store is
   type Int_Ptr is access Integer;
   Kept : Int_Ptr;
   procedure Show;
end Store;
with Ada.Text_IO;
package body Store is
   procedure Show is
      Mine : Int_Ptr := Kept;
   begin
      if Mine /= null then
         Ada.Text_IO.Put_Line (Integer'Image (Mine.all));
      end if;
   end Show;
end Store;
