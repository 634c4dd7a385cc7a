--  The target doesn't take a value below 0.
--> spark run assigned_value_outside.adb
--> status 3
--> out  0
--> err assigned_value_outside.adb:11:7: raised Constraint_Error
with Ada.Text_IO; use Ada.Text_IO;
procedure Main is
   Stock : Natural := 3;
begin
   for Order in 1 .. 3 loop
      Stock := Stock - Order;
      if Stock = 0 then
         Put_Line (Natural'Image (Stock));
      end if;
   end loop;
end Main;
