--  O11: after the block of the observer a call may write the package object.
--> spark check O11_called_after_the_block.adb
--> status 0
--> out accepted
package Store is
   type Int_Ptr is access Integer;
   Kept : Int_Ptr;
   procedure Replace (N : Integer);
end Store;
package body Store is
   procedure Replace (N : Integer) is
   begin
      Kept := new Integer'(N);
   end Replace;
end Store;
with Ada.Text_IO;
with Store; use Store;
procedure Main is
begin
   Replace (7);
   declare
      C : access constant Integer := Kept;
   begin
      Ada.Text_IO.Put_Line (Integer'Image (C.all));
   end;
   Replace (0);
end Main;
