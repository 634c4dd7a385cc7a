--  O4: what leads to a part is moved, and the part with it.
--> spark check O4_old_head.adb
--> status 1
--> err O4_old_head.adb:17:9: O4 L.all.Next: moved
with Ada.Text_IO;
procedure Main is
   type Cell;
   type List is access Cell;
   type Cell is record
      Value : Integer;
      Next  : List;
   end record;
   L   : List := new Cell'(1, new Cell'(2, null));
   Old : List;
begin
   Old := L;
   L := L.Next;
   Ada.Text_IO.Put_Line (Integer'Image (10 * Old.Value + L.Value));
end Main;
