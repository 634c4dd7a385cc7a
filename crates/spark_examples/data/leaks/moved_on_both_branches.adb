--  A move on each of two branches excuses the check after them.
--> spark leaks moved_on_both_branches.adb
--> status 0
--> out moved_on_both_branches.adb:19:7: Y checked
--> out moved_on_both_branches.adb:21:7: Z checked
--> out moved_on_both_branches.adb:23:4: X excused
--> out moved_on_both_branches.adb:27:1: X checked
--> out moved_on_both_branches.adb:27:1: Y checked
--> out moved_on_both_branches.adb:27:1: Z checked
with Ada.Text_IO; use Ada.Text_IO;
with Ada.Unchecked_Deallocation;
procedure Moved_On_Both_Branches is
   type Int_Ptr is access Integer;
   procedure Free is new Ada.Unchecked_Deallocation (Integer, Int_Ptr);
   X : Int_Ptr := new Integer'(1);
   Y, Z : Int_Ptr;
begin
   if End_Of_File then
      Y := X;
   else
      Z := X;
   end if;
   X := new Integer'(2);
   Free (X);
   Free (Y);
   Free (Z);
end Moved_On_Both_Branches;
