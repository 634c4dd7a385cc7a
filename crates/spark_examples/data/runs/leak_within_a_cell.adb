--  A list is cut after its first cell, and the rest isn't freed. The line names the cell that the
--  component had; the cells after it are lost with it.
--> spark run leak_within_a_cell.adb
--> status 5
--> err leak_within_a_cell.adb:23:4: leak of cell 2
with Ada.Unchecked_Deallocation;
procedure Main is
   type Cell;
   type List is access Cell;
   type Cell is record
      Value : Integer;
      Next  : List;
   end record;
   procedure Free is new Ada.Unchecked_Deallocation (Cell, List);
   L    : List;
   Made : List;
begin
   for I in 1 .. 3 loop
      Made := new Cell'(I, null);
      Made.Next := L;
      L := Made;
   end loop;
   L.Next := null;
   Free (L);
end Main;
