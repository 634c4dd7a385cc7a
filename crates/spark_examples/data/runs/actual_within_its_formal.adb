--  The formal takes 0, too.
--> spark run actual_within_its_formal.adb
--> status 0
--> out ***
--> out
package Bars is
   procedure Print (Length : Natural);
end Bars;

with Ada.Text_IO; use Ada.Text_IO;
package body Bars is
   procedure Print (Length : Natural) is
   begin
      for I in 1 .. Length loop
         Put ("*");
      end loop;
      New_Line;
   end Print;
end Bars;

with Bars; use Bars;
procedure Main is
   Change : Integer := 3;
begin
   Print (Change);
   Change := Change - 3;
   Print (Change);
end Main;
