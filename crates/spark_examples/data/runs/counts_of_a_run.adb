--  The declaration, the output, the free, the end of the scope and
--  the end of the program are five steps.
--> spark run --stats counts_of_a_run.adb
--> status 0
--> out  7
--> err steps 5, made 1, freed 1, leaked 0, slots 1
with Ada.Text_IO; use Ada.Text_IO;
with Ada.Unchecked_Deallocation;
procedure Main is
   type Int_Ptr is access Integer;
   procedure Drop is new Ada.Unchecked_Deallocation (Integer, Int_Ptr);
   X : Int_Ptr := new Integer'(7);
begin
   Put_Line (Integer'Image (X.all));
   Drop (X);
end Main;
