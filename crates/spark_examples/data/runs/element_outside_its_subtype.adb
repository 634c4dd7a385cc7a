--  The value of each element has to be in the subtype that the array has for it.
--> spark run element_outside_its_subtype.adb
--> status 3
--> in 5 0
--> out  5
--> err element_outside_its_subtype.adb:16:7: raised Constraint_Error
with Ada.Integer_Text_IO; use Ada.Integer_Text_IO;
with Ada.Text_IO; use Ada.Text_IO;
procedure Main is
   type Row is array (1 .. 8) of Positive;
   R      : Row;
   Filler : Integer;
begin
   while not End_Of_File loop
      Get (Filler);
      R := (others => Filler);
      Put_Line (Integer'Image (R (8)));
   end loop;
end Main;
