--  No more than 1,000 objects are there at once.
--> spark run --stats counts_of_lists.adb
--> status 0
--> err steps 600407, made 100000, freed 100000, leaked 0, slots 1000
with Ada.Unchecked_Deallocation;
procedure Main is
   type Cell;
   type List is access Cell;
   type Cell is record
      Value : Integer;
      Next  : List;
   end record;
   procedure Free is new Ada.Unchecked_Deallocation (Cell, List);
   L, Old : List;
begin
   for R in 1 .. 100 loop
      for I in 1 .. 1000 loop
         L := new Cell'(I, L);
      end loop;
      while L /= null loop
         Old := L;
         L := Old.Next;
         Free (Old);
      end loop;
   end loop;
end Main;
