--  O2: a name with a moved part may be compared with null.
--> spark check O2_look_past_a_moved_part.adb
--> status 0
--> out accepted
procedure Main is
   type Cell;
   type List is access Cell;
   type Cell is record
      Value : Integer;
      Next  : List;
   end record;
   L    : List := new Cell'(1, new Cell'(2, null));
   Rest : List;
begin
   Rest := L.Next;
   if L /= null then
      L.Next := Rest;
   end if;
end Main;
