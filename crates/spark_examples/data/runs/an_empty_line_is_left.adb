--  End_Of_File is false where more than one line feed is left. Get then finds no item.
--> spark run an_empty_line_is_left.adb
--> status 3
--> in 1
--> in
--> out  1
--> err an_empty_line_is_left.adb:14:7: raised End_Error
with Ada.Integer_Text_IO; use Ada.Integer_Text_IO;
with Ada.Text_IO; use Ada.Text_IO;
procedure Main is
   N : Integer;
begin
   while not End_Of_File loop
      Get (N);
      Put_Line (Integer'Image (N));
   end loop;
end Main;
