--  Without input End_Of_File is true at once.
--> spark run empty_input.adb
--> status 0
--> out  0
with Ada.Integer_Text_IO; use Ada.Integer_Text_IO;
with Ada.Text_IO; use Ada.Text_IO;
procedure Main is
   N     : Integer;
   Count : Natural := 0;
begin
   while not End_Of_File loop
      Get (N);
      Count := Count + 1;
   end loop;
   Put_Line (Natural'Image (Count));
end Main;
