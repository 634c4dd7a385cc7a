--  The elements take 0, too.
--> spark run element_within_its_subtype.adb
--> status 0
--> in 5 0
--> out  5
--> out  0
with Ada.Integer_Text_IO; use Ada.Integer_Text_IO;
with Ada.Text_IO; use Ada.Text_IO;
procedure Main is
   type Row is array (1 .. 8) of Natural;
   R      : Row;
   Filler : Integer;
begin
   while not End_Of_File loop
      Get (Filler);
      R := (others => Filler);
      Put_Line (Integer'Image (R (8)));
   end loop;
end Main;
