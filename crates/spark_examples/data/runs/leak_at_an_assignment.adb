--  A list gets its own rest as its value. Nobody has the first cell any more.
--> spark run leak_at_an_assignment.adb
--> status 5
--> out  2
--> err leak_at_an_assignment.adb:19:4: leak of cell 1
with Ada.Text_IO; use Ada.Text_IO;
with Ada.Unchecked_Deallocation;
procedure Main is
   type Cell;
   type List is access Cell;
   type Cell is record
      Value : Integer;
      Next  : List;
   end record;
   procedure Free is new Ada.Unchecked_Deallocation (Cell, List);
   L : List := new Cell'(1, null);
begin
   L.Next := new Cell'(2, null);
   L := L.Next;
   Put_Line (Integer'Image (L.Value));
   Free (L);
end Main;
