--  The value of an actual has to be in the subtype of its formal. The callee doesn't begin.
--> spark run actual_outside_its_formal.adb
--> status 3
--> out ***
--> err actual_outside_its_formal.adb:27:4: raised Constraint_Error
package Bars is
   procedure Print (Length : Positive);
end Bars;

with Ada.Text_IO; use Ada.Text_IO;
package body Bars is
   procedure Print (Length : Positive) is
   begin
      for I in 1 .. Length loop
         Put ("*");
      end loop;
      New_Line;
   end Print;
end Bars;

with Bars; use Bars;
procedure Main is
   Change : Integer := 3;
begin
   Print (Change);
   Change := Change - 3;
   Print (Change);
end Main;
