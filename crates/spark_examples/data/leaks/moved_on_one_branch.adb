--  A move on one of two branches excuses no check after them.
--> spark leaks moved_on_one_branch.adb
--> status 0
--> out moved_on_one_branch.adb:17:7: Y checked
--> out moved_on_one_branch.adb:21:4: X checked
--> out moved_on_one_branch.adb:24:1: X checked
--> out moved_on_one_branch.adb:24:1: Y checked
with Ada.Text_IO; use Ada.Text_IO;
with Ada.Unchecked_Deallocation;
procedure Moved_On_One_Branch is
   type Int_Ptr is access Integer;
   procedure Free is new Ada.Unchecked_Deallocation (Integer, Int_Ptr);
   X : Int_Ptr := new Integer'(1);
   Y : Int_Ptr;
begin
   if End_Of_File then
      Y := X;
   else
      Free (X);
   end if;
   X := new Integer'(2);
   Free (X);
   Free (Y);
end Moved_On_One_Branch;
