--  Both bounds of a loop with an iteration have to be in the subtype of its parameter.
--> spark run bounds_outside_the_parameter.adb
--> status 3
--> err bounds_outside_the_parameter.adb:12:4: raised Constraint_Error
with Ada.Text_IO; use Ada.Text_IO;
procedure Main is
   type Row is array (1 .. 4) of Integer;
   subtype Index is Integer range 1 .. 4;
   R     : Row := (others => 7);
   First : Integer := 0;
begin
   for I in Index range First .. 2 loop
      Put_Line (Integer'Image (R (I)));
   end loop;
end Main;
