--  O14: after the block of the observer the object may be freed.
--> spark check O14_freed_after_the_block.adb
--> status 0
--> out accepted
with Ada.Text_IO;
with Ada.Unchecked_Deallocation;
procedure Main is
   type Int_Ptr is access Integer;
   procedure Free is new Ada.Unchecked_Deallocation (Integer, Int_Ptr);
   X : Int_Ptr := new Integer'(7);
begin
   declare
      C : access constant Integer := X;
   begin
      Ada.Text_IO.Put_Line (Integer'Image (C.all));
   end;
   Free (X);
end Main;
