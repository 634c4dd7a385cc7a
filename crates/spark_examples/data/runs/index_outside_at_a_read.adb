--  A search goes on past the last element.
--> spark run index_outside_at_a_read.adb
--> status 3
--> err index_outside_at_a_read.adb:11:4: raised Constraint_Error
with Ada.Text_IO; use Ada.Text_IO;
procedure Main is
   type Row is array (1 .. 4) of Integer;
   R : Row := (3, 1, 4, 1);
   I : Positive := 1;
begin
   while R (I) /= 5 loop
      I := I + 1;
   end loop;
   Put_Line (Integer'Image (I));
end Main;
