--  The last iteration writes after the last element.
--> spark run index_outside_at_a_write.adb
--> status 3
--> out  4
--> err index_outside_at_a_write.adb:12:7: raised Constraint_Error
with Ada.Text_IO; use Ada.Text_IO;
procedure Main is
   type Row is array (0 .. 4) of Integer;
   R : Row;
begin
   for I in 1 .. 5 loop
      R (I) := I;
      if I = 4 then
         Put_Line (Integer'Image (R (I)));
      end if;
   end loop;
end Main;
