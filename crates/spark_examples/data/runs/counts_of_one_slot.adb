--  Cell and Pair have two words each, so the second object takes the
--  slot of the first.
--> spark run --stats counts_of_one_slot.adb
--> status 0
--> out  0
--> err steps 9, made 2, freed 2, leaked 0, slots 1
with Ada.Text_IO; use Ada.Text_IO;
with Ada.Unchecked_Deallocation;
procedure Main is
   type Cell;
   type List is access Cell;
   type Cell is record
      Value : Integer;
      Next  : List;
   end record;
   type Pair is record
      A, B : Integer;
   end record;
   type Pair_Ptr is access Pair;
   procedure Free is new Ada.Unchecked_Deallocation (Cell, List);
   procedure Gone is new Ada.Unchecked_Deallocation (Pair, Pair_Ptr);
   X : List := new Cell'(5, null);
   Y : Pair_Ptr;
begin
   Free (X);
   Y := new Pair;
   Put_Line (Integer'Image (Y.A));
   Gone (Y);
end Main;
