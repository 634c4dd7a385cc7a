--  Get raises Data_Error at an item that is no number.
--> spark run item_is_no_number.adb
--> status 3
--> in 12 twelve
--> out  12
--> err item_is_no_number.adb:13:7: raised Data_Error
with Ada.Integer_Text_IO; use Ada.Integer_Text_IO;
with Ada.Text_IO; use Ada.Text_IO;
procedure Main is
   N : Integer;
begin
   while not End_Of_File loop
      Get (N);
      Put_Line (Integer'Image (N));
   end loop;
end Main;
