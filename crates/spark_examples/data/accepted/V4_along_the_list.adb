--  V4: a borrower is moved along the list that it borrows.
--> spark check V4_along_the_list.adb
--> status 0
--> out accepted
procedure Main is
   type Cell;
   type List is access Cell;
   type Cell is record
      Value : Integer;
      Next  : List;
   end record;
   L : List := new Cell'(1, new Cell'(2, null));
begin
   declare
      B : access Cell := L;
   begin
      while B /= null loop
         B.Value := B.Value + 1;
         B := B.Next;
      end loop;
   end;
end Main;
