--  A cell is freed with a list in it. The inner cell is made first, so it is number 1.
--> spark run leak_at_a_free.adb
--> status 5
--> err leak_at_a_free.adb:16:10: leak of cell 1
with Ada.Unchecked_Deallocation;
procedure Main is
   type Cell;
   type List is access Cell;
   type Cell is record
      Value : Integer;
      Next  : List;
   end record;
   procedure Free is new Ada.Unchecked_Deallocation (Cell, List);
   L : List := new Cell'(1, new Cell'(2, null));
begin
   Free (L);
end Main;
