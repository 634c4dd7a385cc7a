--  O1: to free the object through its new owner leaves nothing to read through the old name.
--> spark check O1_use_after_free.adb
--> status 1
--> err O1_use_after_free.adb:15:41: O1 X.all: moved
with Ada.Text_IO;
with Ada.Unchecked_Deallocation;
procedure Main is
   type Int_Ptr is access Integer;
   procedure Free is new Ada.Unchecked_Deallocation (Integer, Int_Ptr);
   X : Int_Ptr := new Integer'(7);
   Y : Int_Ptr;
begin
   Y := X;
   Free (Y);
   Ada.Text_IO.Put_Line (Integer'Image (X.all));
end Main;
