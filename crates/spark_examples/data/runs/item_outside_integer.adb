--  A number that is no value of Integer raises Data_Error, too.
--> spark run item_outside_integer.adb
--> status 3
--> in 2147483647 2147483648
--> out  2147483647
--> err item_outside_integer.adb:13:7: raised Data_Error
with Ada.Integer_Text_IO; use Ada.Integer_Text_IO;
with Ada.Text_IO; use Ada.Text_IO;
procedure Main is
   N : Integer;
begin
   while not End_Of_File loop
      Get (N);
      Put_Line (Integer'Image (N));
   end loop;
end Main;
