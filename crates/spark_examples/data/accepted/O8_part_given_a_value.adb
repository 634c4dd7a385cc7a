--  O8: a part that is moved through a borrower has a value again at the end of the block.
--> spark check O8_part_given_a_value.adb
--> status 0
--> out accepted
procedure Main is
   type Cell;
   type List is access Cell;
   type Cell is record
      Value : Integer;
      Next  : List;
   end record;
   L    : List := new Cell'(1, new Cell'(2, null));
   Rest : List;
begin
   declare
      B : access Cell := L;
   begin
      Rest := B.Next;
      B.Next := null;
   end;
   Rest.Value := L.Value;
end Main;
