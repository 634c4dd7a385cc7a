--  The search ends at the last element. The right operand of `and then` is evaluated only if the
--  left one is true.
--> spark run index_tested_first.adb
--> status 0
--> out  5
with Ada.Text_IO; use Ada.Text_IO;
procedure Main is
   type Row is array (1 .. 4) of Integer;
   R : Row := (3, 1, 4, 1);
   I : Positive := 1;
begin
   while I <= Row'Last and then R (I) /= 5 loop
      I := I + 1;
   end loop;
   Put_Line (Integer'Image (I));
end Main;
