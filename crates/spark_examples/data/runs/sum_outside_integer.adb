--  The sum of the largest value and 1 is no value of Integer.
--> spark run sum_outside_integer.adb
--> status 3
--> out  2147483647
--> err sum_outside_integer.adb:11:7: raised Constraint_Error
with Ada.Text_IO; use Ada.Text_IO;
procedure Main is
   N : Integer := Integer'Last - 1;
begin
   loop
      N := N + 1;
      Put_Line (Integer'Image (N));
   end loop;
end Main;
