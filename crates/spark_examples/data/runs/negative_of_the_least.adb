--  The least value of Integer has no positive counterpart.
--> spark run negative_of_the_least.adb
--> status 3
--> in -2147483647
--> in -2147483648
--> out  2147483647
--> err negative_of_the_least.adb:15:7: raised Constraint_Error
with Ada.Integer_Text_IO; use Ada.Integer_Text_IO;
with Ada.Text_IO; use Ada.Text_IO;
procedure Main is
   N : Integer;
begin
   while not End_Of_File loop
      Get (N);
      Put_Line (Integer'Image (-N));
   end loop;
end Main;
