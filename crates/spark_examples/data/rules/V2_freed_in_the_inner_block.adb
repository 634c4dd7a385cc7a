--  V2 and O14: an observer outlives its source, which is freed at the end of the inner block.
--> spark check V2_freed_in_the_inner_block.adb
--> status 1
--> err V2_freed_in_the_inner_block.adb:17:12: V2 Y: source ends before the observer
--> err V2_freed_in_the_inner_block.adb:18:13: O14 Y: observed
with Ada.Text_IO;
with Ada.Unchecked_Deallocation;
procedure Main is
   type Int_Ptr is access Integer;
   procedure Free is new Ada.Unchecked_Deallocation (Integer, Int_Ptr);
   X : Int_Ptr := new Integer'(1);
   C : access constant Integer := X;
begin
   declare
      Y : Int_Ptr := new Integer'(2);
   begin
      C := Y;
      Free (Y);
   end;
   Ada.Text_IO.Put_Line (Integer'Image (C.all));
end Main;
