--  O7: a borrower may not go on while another one borrows from it.
--> spark check O7_lent.adb
--> status 1
--> err O7_lent.adb:18:7: O7 B: borrowed
procedure Main is
   type Cell;
   type List is access Cell;
   type Cell is record
      Value : Integer;
      Next  : List;
   end record;
   L : List := new Cell'(1, new Cell'(2, null));
begin
   declare
      B : access Cell := L;
      C : access Cell := B.Next;
   begin
      B := B.Next;
      C.Value := 3;
      B.Value := 4;
   end;
end Main;
