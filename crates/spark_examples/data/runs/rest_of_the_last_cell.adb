--  A walk along a list dereferences the rest of the last cell, which is null, in its condition.
--> spark run rest_of_the_last_cell.adb
--> status 3
--> out  1
--> out  2
--> err rest_of_the_last_cell.adb:20:7: raised Constraint_Error
with Ada.Text_IO; use Ada.Text_IO;
procedure Main is
   type Cell;
   type List is access Cell;
   type Cell is record
      Value : Integer;
      Next  : List;
   end record;
   L : List := new Cell'(1, new Cell'(2, null));
begin
   declare
      C : access constant Cell := L;
   begin
      while C.Value > 0 loop
         Put_Line (Integer'Image (C.Value));
         C := C.Next;
      end loop;
   end;
end Main;
