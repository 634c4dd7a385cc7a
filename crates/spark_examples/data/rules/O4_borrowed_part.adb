--  O4: nothing that has a borrowed part may be moved.
--> spark check O4_borrowed_part.adb
--> status 1
--> err O4_borrowed_part.adb:18:15: O4 L: borrowed
procedure Main is
   type Cell;
   type List is access Cell;
   type Cell is record
      Value : Integer;
      Next  : List;
   end record;
   L    : List := new Cell'(1, new Cell'(2, null));
   Mine : List;
begin
   declare
      B : access Cell := L.Next;
   begin
      Mine := L;
      B.Value := 3;
   end;
end Main;
