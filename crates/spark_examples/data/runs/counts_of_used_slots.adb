--  Three objects of two sizes, one after the other.
--> spark run --stats counts_of_used_slots.adb
--> status 0
--> out  6
--> err steps 11, made 3, freed 3, leaked 0, slots 2
with Ada.Text_IO; use Ada.Text_IO;
with Ada.Unchecked_Deallocation;
procedure Main is
   type Cell;
   type List is access Cell;
   type Cell is record
      Value : Integer;
      Next  : List;
   end record;
   type Int_Ptr is access Integer;
   procedure Free is new Ada.Unchecked_Deallocation (Cell, List);
   procedure Drop is new Ada.Unchecked_Deallocation (Integer, Int_Ptr);
   X : List := new Cell'(5, null);
   I : Int_Ptr;
begin
   Free (X);
   I := new Integer'(3);
   Drop (I);
   X := new Cell'(6, null);
   Put_Line (Integer'Image (X.Value));
   Free (X);
end Main;
