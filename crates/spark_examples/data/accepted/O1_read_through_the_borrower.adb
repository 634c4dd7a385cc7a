--  O1: what is borrowed is read through the borrower.
--> spark check O1_read_through_the_borrower.adb
--> status 0
--> out accepted
procedure Main is
   type Cell;
   type List is access Cell;
   type Cell is record
      Value : Integer;
      Next  : List;
   end record;
   L : List := new Cell'(1, null);
begin
   declare
      B : access Cell := L;
   begin
      B.Value := B.Value + 1;
   end;
   L.Value := L.Value + 1;
end Main;
