--  O3: a list can't be closed to a ring, since its head is moved before its tail is written.
--> spark check O3_ring.adb
--> status 1
--> err O3_ring.adb:14:4: O3 L.all.Next: moved
procedure Main is
   type Cell;
   type List is access Cell;
   type Cell is record
      Value : Integer;
      Next  : List;
   end record;
   L : List := new Cell'(1, null);
begin
   L.Next := L;
end Main;
