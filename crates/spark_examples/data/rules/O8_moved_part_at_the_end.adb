--  O8: the block of a borrower may not end while a part that was moved through it has no value.
--> spark check O8_moved_part_at_the_end.adb
--> status 1
--> err O8_moved_part_at_the_end.adb:19:4: O8 B.all.Next: moved
procedure Main is
   type Cell;
   type List is access Cell;
   type Cell is record
      Value : Integer;
      Next  : List;
   end record;
   L    : List := new Cell'(1, new Cell'(2, null));
   Rest : List;
begin
   declare
      B : access Cell := L;
   begin
      Rest := B.Next;
   end;
   Rest.Value := L.Value;
end Main;
