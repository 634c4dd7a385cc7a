--  Get raises End_Error where no item is left: the program wants pairs, and the input has three
--  numbers.
--> spark run no_item_is_left.adb
--> status 3
--> in 1 2
--> in 3
--> out  3
--> err no_item_is_left.adb:17:7: raised End_Error
with Ada.Integer_Text_IO; use Ada.Integer_Text_IO;
with Ada.Text_IO; use Ada.Text_IO;
procedure Main is
   First  : Integer;
   Second : Integer;
begin
   while not End_Of_File loop
      Get (First);
      Get (Second);
      Put_Line (Integer'Image (First + Second));
   end loop;
end Main;
