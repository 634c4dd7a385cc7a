--  O1: a part that was moved may not be read, nor what it leads to.
--> spark check O1_moved_part.adb
--> status 1
--> err O1_moved_part.adb:17:9: O1 L.all.Next.all.Value: moved
procedure Main is
   type Cell;
   type List is access Cell;
   type Cell is record
      Value : Integer;
      Next  : List;
   end record;
   L    : List := new Cell'(1, new Cell'(2, null));
   Rest : List;
   N    : Integer;
begin
   Rest := L.Next;
   N := L.Next.Value;
end Main;
