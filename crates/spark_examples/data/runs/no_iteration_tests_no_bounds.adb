--  Where the low bound is above the high one there is no iteration, and neither bound is tested.
--> spark run no_iteration_tests_no_bounds.adb
--> status 0
--> out none
with Ada.Text_IO; use Ada.Text_IO;
procedure Main is
   type Row is array (1 .. 4) of Integer;
   subtype Index is Integer range 1 .. 4;
   R     : Row := (others => 7);
   First : Integer := 5;
begin
   for I in Index range First .. 2 loop
      Put_Line (Integer'Image (R (I)));
   end loop;
   Put_Line ("none");
end Main;
