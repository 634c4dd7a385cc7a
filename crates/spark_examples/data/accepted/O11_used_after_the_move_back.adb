--  O11: the package object has its value again before the call.
--> spark check O11_used_after_the_move_back.adb
--> status 0
--> out accepted
package Store is
   type Int_Ptr is access Integer;
   Kept : Int_Ptr := new Integer'(7);
   procedure Show;
   procedure Double;
end Store;
with Ada.Text_IO;
package body Store is
   procedure Show is
   begin
      if Kept /= null then
         Ada.Text_IO.Put_Line (Integer'Image (Kept.all));
      end if;
   end Show;
   procedure Double is
      Mine : Int_Ptr := Kept;
   begin
      Mine.all := 2 * Mine.all;
      Kept := Mine;
      Show;
   end Double;
end Store;
