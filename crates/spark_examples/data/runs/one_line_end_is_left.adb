--  End_Of_File is true where one line feed is left.
--> spark run one_line_end_is_left.adb
--> status 0
--> in 1
--> out  1
with Ada.Integer_Text_IO; use Ada.Integer_Text_IO;
with Ada.Text_IO; use Ada.Text_IO;
procedure Main is
   N : Integer;
begin
   while not End_Of_File loop
      Get (N);
      Put_Line (Integer'Image (N));
   end loop;
end Main;
