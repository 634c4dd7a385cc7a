--  O7: the borrower goes on after the block of the other one.
--> spark check O7_lent_no_longer.adb
--> status 0
--> out accepted
procedure Main is
   type Cell;
   type List is access Cell;
   type Cell is record
      Value : Integer;
      Next  : List;
   end record;
   L : List := new Cell'(1, new Cell'(2, null));
begin
   declare
      B : access Cell := L;
   begin
      declare
         C : access Cell := B.Next;
      begin
         C.Value := 3;
      end;
      B := B.Next;
      B.Value := B.Value + 1;
   end;
end Main;
