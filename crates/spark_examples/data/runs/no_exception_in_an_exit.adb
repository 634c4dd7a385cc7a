--  The loop ends where the list does.
--> spark run no_exception_in_an_exit.adb
--> status 0
--> out  1
--> out  2
with Ada.Text_IO; use Ada.Text_IO;
with Ada.Unchecked_Deallocation;
procedure Main is
   type Cell;
   type List is access Cell;
   type Cell is record
      Value : Integer;
      Next  : List;
   end record;
   procedure Free is new Ada.Unchecked_Deallocation (Cell, List);
   L : List := new Cell'(1, new Cell'(2, null));
begin
   declare
      C : access constant Cell := L;
   begin
      loop
         exit when C = null or else C.Value = 3;
         Put_Line (Integer'Image (C.Value));
         C := C.Next;
      end loop;
   end;
   Free (L.Next);
   Free (L);
end Main;
