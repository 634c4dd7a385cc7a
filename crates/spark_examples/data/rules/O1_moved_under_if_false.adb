--  O1: a branch counts as taken, even one whose condition is the constant False.
--> spark check O1_moved_under_if_false.adb
--> status 1
--> err O1_moved_under_if_false.adb:14:41: O1 X.all: moved
with Ada.Text_IO;
procedure Main is
   type Int_Ptr is access Integer;
   Kept : Int_Ptr;
   X    : Int_Ptr := new Integer'(7);
begin
   if False then
      Kept := X;
   end if;
   Ada.Text_IO.Put_Line (Integer'Image (X.all));
end Main;
