--  The component keeps its cell, and what is in the cell changes.
--> spark run component_changed_in_its_cell.adb
--> status 0
--> out  20
with Ada.Text_IO; use Ada.Text_IO;
with Ada.Unchecked_Deallocation;
procedure Main is
   type Count_Ptr is access Natural;
   type Account is record
      Number  : Positive;
      Balance : Count_Ptr;
   end record;
   procedure Free is new Ada.Unchecked_Deallocation (Natural, Count_Ptr);
   A : Account := (1, new Natural'(10));
begin
   A.Balance.all := 20;
   Put_Line (Natural'Image (A.Balance.all));
   Free (A.Balance);
end Main;
