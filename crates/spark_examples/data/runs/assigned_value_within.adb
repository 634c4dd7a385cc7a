--  Only what the target takes is assigned to it.
--> spark run assigned_value_within.adb
--> status 0
--> out  0
with Ada.Text_IO; use Ada.Text_IO;
procedure Main is
   Stock : Natural := 3;
begin
   for Order in 1 .. 3 loop
      if Order <= Stock then
         Stock := Stock - Order;
      end if;
   end loop;
   Put_Line (Natural'Image (Stock));
end Main;
