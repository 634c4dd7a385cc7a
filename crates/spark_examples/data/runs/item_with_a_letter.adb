--  An item goes on to the next blank, so the letter belongs to it.
--> spark run item_with_a_letter.adb
--> status 3
--> in 12x
--> err item_with_a_letter.adb:12:7: raised Data_Error
with Ada.Integer_Text_IO; use Ada.Integer_Text_IO;
with Ada.Text_IO; use Ada.Text_IO;
procedure Main is
   N : Integer;
begin
   while not End_Of_File loop
      Get (N);
      Put_Line (Integer'Image (N));
   end loop;
end Main;
