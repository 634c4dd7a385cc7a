--  O1: what is moved on one branch may be read on the other one.
--> spark check O1_one_condition.adb
--> status 0
--> out accepted
with Ada.Text_IO; use Ada.Text_IO;
procedure Main is
   type Int_Ptr is access Integer;
   X    : Int_Ptr := new Integer'(7);
   Y    : Int_Ptr;
   Done : constant Boolean := End_Of_File;
begin
   if Done then
      Y := X;
      Put_Line (Integer'Image (Y.all));
   else
      Put_Line (Integer'Image (X.all));
   end if;
end Main;
