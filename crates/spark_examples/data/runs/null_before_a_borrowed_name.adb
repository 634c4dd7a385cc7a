--  A borrower of the rest of an empty list: L is null, so it has no rest.
--> spark run null_before_a_borrowed_name.adb
--> status 3
--> err null_before_a_borrowed_name.adb:16:7: raised Constraint_Error
with Ada.Text_IO; use Ada.Text_IO;
procedure Main is
   type Cell;
   type List is access Cell;
   type Cell is record
      Value : Integer;
      Next  : List;
   end record;
   L : List;
begin
   declare
      B : access Cell := L.Next;
   begin
      if B = null then
         Put_Line ("no second cell");
      end if;
   end;
end Main;
