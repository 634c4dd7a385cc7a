--  The loop never ends, so its steps are spent. What was written before stays.
--> spark run --steps=1000 steps_of_an_endless_loop.adb
--> status 4
--> out begin
--> err steps spent: 1000
with Ada.Text_IO; use Ada.Text_IO;
procedure Main is
   N : Natural := 0;
begin
   Put_Line ("begin");
   while N < 10 loop
      N := (N + 1) mod 10;
   end loop;
   Put_Line ("end");
end Main;
