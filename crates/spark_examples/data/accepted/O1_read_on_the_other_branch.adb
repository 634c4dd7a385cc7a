--  O1: a name that is moved on one branch may be read on the other one.
--> spark check O1_read_on_the_other_branch.adb
--> status 0
--> out accepted
with Ada.Text_IO;
procedure Main is
   type Int_Ptr is access Integer;
   X : Int_Ptr := new Integer'(7);
   Y : Int_Ptr;
begin
   if Ada.Text_IO.End_Of_File then
      Y := X;
   else
      Ada.Text_IO.Put_Line (Integer'Image (X.all));
   end if;
end Main;
