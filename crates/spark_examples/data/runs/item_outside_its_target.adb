--  The item is a value of Integer, but its target doesn't take it.
--> spark run item_outside_its_target.adb
--> status 3
--> in 3 -3
--> out  3
--> err item_outside_its_target.adb:13:7: raised Constraint_Error
with Ada.Integer_Text_IO; use Ada.Integer_Text_IO;
with Ada.Text_IO; use Ada.Text_IO;
procedure Main is
   N : Natural;
begin
   while not End_Of_File loop
      Get (N);
      Put_Line (Natural'Image (N));
   end loop;
end Main;
