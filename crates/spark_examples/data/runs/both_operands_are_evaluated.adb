--  `and` evaluates both operands, whatever the left one is.
--> spark run both_operands_are_evaluated.adb
--> status 3
--> err both_operands_are_evaluated.adb:11:4: raised Constraint_Error
with Ada.Text_IO; use Ada.Text_IO;
procedure Main is
   type Row is array (1 .. 4) of Integer;
   R : Row := (3, 1, 4, 1);
   I : Positive := 1;
begin
   while I <= Row'Last and R (I) /= 5 loop
      I := I + 1;
   end loop;
   Put_Line (Integer'Image (I));
end Main;
