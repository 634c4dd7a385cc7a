--  A borrower of a name that is null is null itself.
--> spark run null_as_a_borrowed_name.adb
--> status 0
--> out no first cell
with Ada.Text_IO; use Ada.Text_IO;
procedure Main is
   type Cell;
   type List is access Cell;
   type Cell is record
      Value : Integer;
      Next  : List;
   end record;
   L : List;
begin
   declare
      B : access Cell := L;
   begin
      if B = null then
         Put_Line ("no first cell");
      end if;
   end;
end Main;
