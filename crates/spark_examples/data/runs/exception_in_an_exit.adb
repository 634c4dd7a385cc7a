--  What the condition of an exit raises stands at the word exit. The list has no 3.
--> spark run exception_in_an_exit.adb
--> status 3
--> out  1
--> out  2
--> err exception_in_an_exit.adb:19:7: raised Constraint_Error
with Ada.Text_IO; use Ada.Text_IO;
procedure Main is
   type Cell;
   type List is access Cell;
   type Cell is record
      Value : Integer;
      Next  : List;
   end record;
   L : List := new Cell'(1, new Cell'(2, null));
   C : access constant Cell := L;
begin
   loop
      exit when C.Value = 3;
      Put_Line (Integer'Image (C.Value));
      C := C.Next;
   end loop;
end Main;
