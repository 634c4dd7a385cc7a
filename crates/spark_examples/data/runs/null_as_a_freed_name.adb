--  To free null does nothing.
--> spark run null_as_a_freed_name.adb
--> status 0
with Ada.Unchecked_Deallocation;
procedure Main is
   type Cell;
   type List is access Cell;
   type Cell is record
      Value : Integer;
      Next  : List;
   end record;
   procedure Free is new Ada.Unchecked_Deallocation (Cell, List);
   L : List := new Cell'(1, null);
begin
   Free (L.Next);
   Free (L);
   Free (L);
end Main;
