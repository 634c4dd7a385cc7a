--  O9: a package object is observed, and keeps its value.
--> spark check O9_package_object_observed.adb
--> status 0
--> out accepted
package Store is
   type Int_Ptr is access Integer;
   Kept : Int_Ptr;
   procedure Show;
end Store;
with Ada.Text_IO;
package body Store is
   procedure Show is
      Seen : access constant Integer := Kept;
   begin
      if Seen /= null then
         Ada.Text_IO.Put_Line (Integer'Image (Seen.all));
      end if;
   end Show;
end Store;
