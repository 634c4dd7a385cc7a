--  V4: another object is borrowed by another borrower.
--> spark check V4_block_of_its_own.adb
--> status 0
--> out accepted
procedure Main is
   type Cell;
   type List is access Cell;
   type Cell is record
      Value : Integer;
      Next  : List;
   end record;
   L : List := new Cell'(1, null);
   M : List := new Cell'(2, null);
begin
   declare
      B : access Cell := L;
   begin
      B.Value := 3;
   end;
   declare
      B : access Cell := M;
   begin
      B.Value := 4;
   end;
end Main;
