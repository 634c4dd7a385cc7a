--  O1: conditions play no part, so one that is tested twice may be true and then false.
--> spark check O1_same_condition_twice.adb
--> status 1
--> err O1_same_condition_twice.adb:16:32: O1 X.all: moved
with Ada.Text_IO; use Ada.Text_IO;
procedure Main is
   type Int_Ptr is access Integer;
   X    : Int_Ptr := new Integer'(7);
   Y    : Int_Ptr;
   Done : constant Boolean := End_Of_File;
begin
   if Done then
      Y := X;
   end if;
   if not Done then
      Put_Line (Integer'Image (X.all));
   end if;
   if Done then
      Put_Line (Integer'Image (Y.all));
   end if;
end Main;
