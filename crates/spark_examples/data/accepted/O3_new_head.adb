--  O3: a list gets a new head, which owns the old one.
--> spark check O3_new_head.adb
--> status 0
--> out accepted
procedure Main is
   type Cell;
   type List is access Cell;
   type Cell is record
      Value : Integer;
      Next  : List;
   end record;
   L : List := new Cell'(1, null);
begin
   L := new Cell'(2, L);
end Main;
