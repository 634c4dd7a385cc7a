--  A sign has to stand directly before its digits.
--> spark run item_is_a_sign.adb
--> status 3
--> in +1 - 1
--> out  1
--> err item_is_a_sign.adb:13:7: raised Data_Error
with Ada.Integer_Text_IO; use Ada.Integer_Text_IO;
with Ada.Text_IO; use Ada.Text_IO;
procedure Main is
   N : Integer;
begin
   while not End_Of_File loop
      Get (N);
      Put_Line (Integer'Image (N));
   end loop;
end Main;
