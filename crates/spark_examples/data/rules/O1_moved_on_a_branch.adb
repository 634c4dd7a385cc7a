--  O1: a name that is moved on one branch is moved after it, whatever is tested there.
--> spark check O1_moved_on_a_branch.adb
--> status 1
--> err O1_moved_on_a_branch.adb:14:41: O1 X.all: moved
with Ada.Text_IO;
procedure Main is
   type Int_Ptr is access Integer;
   X : Int_Ptr := new Integer'(7);
   Y : Int_Ptr;
begin
   if Ada.Text_IO.End_Of_File then
      Y := X;
   end if;
   Ada.Text_IO.Put_Line (Integer'Image (X.all));
end Main;
