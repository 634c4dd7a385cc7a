--  O4: the rest is moved out of the new owner of the cell.
--> spark check O4_rest_of_the_old_head.adb
--> status 0
--> out accepted
with Ada.Text_IO;
procedure Main is
   type Cell;
   type List is access Cell;
   type Cell is record
      Value : Integer;
      Next  : List;
   end record;
   L   : List := new Cell'(1, new Cell'(2, null));
   Old : List;
begin
   Old := L;
   L := Old.Next;
   Ada.Text_IO.Put_Line (Integer'Image (10 * Old.Value + L.Value));
end Main;
