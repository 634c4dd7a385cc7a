--  O1: the left operand of a short circuit guards nothing, since conditions play no part.
--> spark check O1_after_a_short_circuit.adb
--> status 1
--> err O1_after_a_short_circuit.adb:14:25: O1 X.all: moved
with Ada.Text_IO;
procedure Main is
   type Int_Ptr is access Integer;
   X : Int_Ptr := new Integer'(7);
   Y : Int_Ptr;
begin
   if Ada.Text_IO.End_Of_File then
      Y := X;
   end if;
   if Y = null and then X.all = 7 then
      Ada.Text_IO.Put_Line ("seven");
   end if;
end Main;
