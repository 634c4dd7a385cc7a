--  O11: no call may read a package object that is borrowed.
--> spark check O11_read_while_borrowed.adb
--> status 1
--> err O11_read_while_borrowed.adb:26:7: O11 Store.Kept: borrowed
package Store is
   type Int_Ptr is access Integer;
   Kept : Int_Ptr := new Integer'(7);
   procedure Show;
end Store;
with Ada.Text_IO;
package body Store is
   procedure Show is
   begin
      if Kept /= null then
         Ada.Text_IO.Put_Line (Integer'Image (Kept.all));
      end if;
   end Show;
end Store;
with Store; use Store;
procedure Main is
begin
   declare
      B : access Integer := Kept;
   begin
      B.all := 8;
      Show;
   end;
end Main;
