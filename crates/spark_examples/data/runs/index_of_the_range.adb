--  The range of the array has exactly its indexes.
--> spark run index_of_the_range.adb
--> status 0
--> out  4
with Ada.Text_IO; use Ada.Text_IO;
procedure Main is
   type Row is array (0 .. 4) of Integer;
   R : Row;
begin
   for I in R'Range loop
      R (I) := I;
   end loop;
   Put_Line (Integer'Image (R (R'Last)));
end Main;
