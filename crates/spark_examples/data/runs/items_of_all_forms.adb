--  Items have a sign or none, and leading zeros or none. Any number of blanks, tabs and lines is
--  between them.
--> spark run items_of_all_forms.adb
--> status 0
--> in 7 +8   -9
--> in
--> in 	007	-0
--> in   -2147483648 +2147483647
--> out  7
--> out  8
--> out -9
--> out  7
--> out  0
--> out -2147483648
--> out  2147483647
with Ada.Integer_Text_IO; use Ada.Integer_Text_IO;
with Ada.Text_IO; use Ada.Text_IO;
procedure Main is
   N : Integer;
begin
   while not End_Of_File loop
      Get (N);
      Put_Line (Integer'Image (N));
   end loop;
end Main;
