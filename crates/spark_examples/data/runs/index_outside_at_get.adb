--  The target of Get is found before the item is taken: the third number has no element.
--> spark run index_outside_at_get.adb
--> status 3
--> in 1 2 3
--> out  3
--> err index_outside_at_get.adb:15:7: raised Constraint_Error
with Ada.Integer_Text_IO; use Ada.Integer_Text_IO;
with Ada.Text_IO; use Ada.Text_IO;
procedure Main is
   type Pair is array (1 .. 2) of Integer;
   P : Pair;
   I : Positive := 1;
begin
   while not End_Of_File loop
      Get (P (I));
      I := I + 1;
      if I = 3 then
         Put_Line (Integer'Image (P (1) + P (2)));
      end if;
   end loop;
end Main;
