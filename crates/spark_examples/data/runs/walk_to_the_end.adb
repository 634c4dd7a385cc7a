--  The walk ends where the observer is null.
--> spark run walk_to_the_end.adb
--> status 0
--> out  1
--> out  2
with Ada.Text_IO; use Ada.Text_IO;
with Ada.Unchecked_Deallocation;
procedure Main is
   type Cell;
   type List is access Cell;
   type Cell is record
      Value : Integer;
      Next  : List;
   end record;
   procedure Free is new Ada.Unchecked_Deallocation (Cell, List);
   L : List := new Cell'(1, new Cell'(2, null));
begin
   declare
      C : access constant Cell := L;
   begin
      while C /= null and then C.Value > 0 loop
         Put_Line (Integer'Image (C.Value));
         C := C.Next;
      end loop;
   end;
   Free (L.Next);
   Free (L);
end Main;
