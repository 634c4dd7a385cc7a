--  The loop ends before the divisor is zero.
--> spark run remainder_by_a_divisor.adb
--> status 0
--> out  4
with Ada.Text_IO; use Ada.Text_IO;
procedure Main is
   A : Natural := 12;
   B : Natural := 20;
   C : Natural;
begin
   while B /= 0 loop
      C := A mod B;
      A := B;
      B := C;
   end loop;
   Put_Line (Natural'Image (A));
end Main;
