--  O1: a part beside the one that was moved may be read.
--> spark check O1_other_part.adb
--> status 0
--> out accepted
procedure Main is
   type Cell;
   type List is access Cell;
   type Cell is record
      Value : Integer;
      Next  : List;
   end record;
   L    : List := new Cell'(1, new Cell'(2, null));
   Rest : List;
   N    : Integer;
begin
   Rest := L.Next;
   N := L.Value + Rest.Value;
end Main;
