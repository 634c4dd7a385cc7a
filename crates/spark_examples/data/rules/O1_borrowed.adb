--  O1: what is borrowed may be read through the borrower alone, to the end of its block.
--> spark check O1_borrowed.adb
--> status 1
--> err O1_borrowed.adb:17:18: O1 L.all.Value: borrowed
procedure Main is
   type Cell;
   type List is access Cell;
   type Cell is record
      Value : Integer;
      Next  : List;
   end record;
   L : List := new Cell'(1, null);
begin
   declare
      B : access Cell := L;
   begin
      B.Value := L.Value + 1;
   end;
   L.Value := L.Value + 1;
end Main;
