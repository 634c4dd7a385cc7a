--  The quotient of the least value and -1 is no value of Integer; its remainder is 0.
--> spark run quotient_of_the_least.adb
--> status 3
--> out  0
--> err quotient_of_the_least.adb:12:4: raised Constraint_Error
with Ada.Text_IO; use Ada.Text_IO;
procedure Main is
   N : Integer := Integer'First;
   D : Integer := -1;
begin
   Put_Line (Integer'Image (N rem D));
   Put_Line (Integer'Image (N / D));
end Main;
