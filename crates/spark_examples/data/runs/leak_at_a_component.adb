--  A component that owns a cell gets another one.
--> spark run leak_at_a_component.adb
--> status 5
--> out  20
--> err leak_at_a_component.adb:17:4: leak of cell 1
with Ada.Text_IO; use Ada.Text_IO;
with Ada.Unchecked_Deallocation;
procedure Main is
   type Count_Ptr is access Natural;
   type Account is record
      Number  : Positive;
      Balance : Count_Ptr;
   end record;
   procedure Free is new Ada.Unchecked_Deallocation (Natural, Count_Ptr);
   A : Account := (1, new Natural'(10));
begin
   A.Balance := new Natural'(20);
   Put_Line (Natural'Image (A.Balance.all));
   Free (A.Balance);
end Main;
