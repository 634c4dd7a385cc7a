--  The difference of the least value and 1 is no value of Integer. The negative number is printed
--  without a blank in front.
--> spark run difference_outside_integer.adb
--> status 3
--> out -2147483648
--> err difference_outside_integer.adb:12:7: raised Constraint_Error
with Ada.Text_IO; use Ada.Text_IO;
procedure Main is
   N : Integer := Integer'First + 1;
begin
   loop
      N := N - 1;
      Put_Line (Integer'Image (N));
   end loop;
end Main;
