--  V4: a borrower may be moved along what it borrows, and not to another object.
--> spark check V4_other_root.adb
--> status 1
--> err V4_other_root.adb:19:12: V4 M: not rooted in the borrower
procedure Main is
   type Cell;
   type List is access Cell;
   type Cell is record
      Value : Integer;
      Next  : List;
   end record;
   L : List := new Cell'(1, null);
   M : List := new Cell'(2, null);
begin
   declare
      B : access Cell := L;
   begin
      B.Value := 3;
      B := M;
      B.Value := 4;
   end;
end Main;
