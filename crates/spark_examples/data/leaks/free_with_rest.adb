--  A cell is freed while it owns the rest of its list.
--> spark leaks free_with_rest.adb
--> status 0
--> out free_with_rest.adb:18:10: L.all.Next checked
--> out free_with_rest.adb:19:1: L checked
with Ada.Unchecked_Deallocation;
procedure Free_With_Rest is
   type Cell;
   type List is access Cell;
   type Cell is record
      Value : Integer;
      Next  : List;
   end record;
   procedure Free is new Ada.Unchecked_Deallocation (Cell, List);
   L : List := new Cell'(1, new Cell'(2, null));
begin
   L.Value := 3;
   Free (L);
end Free_With_Rest;
