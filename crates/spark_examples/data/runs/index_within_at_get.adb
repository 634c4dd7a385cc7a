--  As many numbers are read as there are elements.
--> spark run index_within_at_get.adb
--> status 0
--> in 1 2 3
--> out  3
with Ada.Integer_Text_IO; use Ada.Integer_Text_IO;
with Ada.Text_IO; use Ada.Text_IO;
procedure Main is
   type Pair is array (1 .. 2) of Integer;
   P : Pair;
begin
   for I in Pair'Range loop
      Get (P (I));
   end loop;
   Put_Line (Integer'Image (P (1) + P (2)));
end Main;
