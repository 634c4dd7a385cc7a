--  Euclid's algorithm takes one remainder too many.
--> spark run remainder_by_zero.adb
--> status 3
--> out  4
--> err remainder_by_zero.adb:13:7: raised Constraint_Error
with Ada.Text_IO; use Ada.Text_IO;
procedure Main is
   A : Natural := 12;
   B : Natural := 20;
   C : Natural;
begin
   loop
      C := A mod B;
      A := B;
      B := C;
      if B = 0 then
         Put_Line (Natural'Image (A));
      end if;
   end loop;
end Main;
