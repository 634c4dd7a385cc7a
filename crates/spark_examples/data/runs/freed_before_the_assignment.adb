--  The first cell keeps an owner until it is freed, so the list can get its rest as its value.
--> spark run freed_before_the_assignment.adb
--> status 0
--> out  2
with Ada.Text_IO; use Ada.Text_IO;
with Ada.Unchecked_Deallocation;
procedure Main is
   type Cell;
   type List is access Cell;
   type Cell is record
      Value : Integer;
      Next  : List;
   end record;
   procedure Free is new Ada.Unchecked_Deallocation (Cell, List);
   L     : List := new Cell'(1, null);
   First : List;
begin
   L.Next := new Cell'(2, null);
   First := L;
   L := First.Next;
   Free (First);
   Put_Line (Integer'Image (L.Value));
   Free (L);
end Main;
