--  O11: no call may use a package object that was moved away.
--> spark check O11_used_while_moved.adb
--> status 1
--> err O11_used_while_moved.adb:23:7: O11 Store.Kept: moved
package Store is
   type Int_Ptr is access Integer;
   Kept : Int_Ptr := new Integer'(7);
   procedure Show;
   procedure Double;
end Store;
with Ada.Text_IO;
package body Store is
   procedure Show is
   begin
      if Kept /= null then
         Ada.Text_IO.Put_Line (Integer'Image (Kept.all));
      end if;
   end Show;
   procedure Double is
      Mine : Int_Ptr := Kept;
   begin
      Mine.all := 2 * Mine.all;
      Show;
      Kept := Mine;
   end Double;
end Store;
