--  The inner cell is freed first. Its component is null then, and the outer cell owns nothing.
--> spark run emptied_before_the_free.adb
--> status 0
with Ada.Unchecked_Deallocation;
procedure Main is
   type Cell;
   type List is access Cell;
   type Cell is record
      Value : Integer;
      Next  : List;
   end record;
   procedure Free is new Ada.Unchecked_Deallocation (Cell, List);
   L : List := new Cell'(1, new Cell'(2, null));
begin
   Free (L.Next);
   Free (L);
end Main;
