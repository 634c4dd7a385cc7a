--  The program asks for the end of the input before each item.
--> spark run end_is_tested_first.adb
--> status 0
--> in 1 2
--> in 3
--> out  3
--> out  3
with Ada.Integer_Text_IO; use Ada.Integer_Text_IO;
with Ada.Text_IO; use Ada.Text_IO;
procedure Main is
   First  : Integer;
   Second : Integer;
begin
   while not End_Of_File loop
      Get (First);
      Second := 0;
      if not End_Of_File then
         Get (Second);
      end if;
      Put_Line (Integer'Image (First + Second));
   end loop;
end Main;
