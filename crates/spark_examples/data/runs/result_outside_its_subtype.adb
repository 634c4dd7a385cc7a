--  What a function returns has to be in the subtype of its result.
--> spark run result_outside_its_subtype.adb
--> status 3
--> out  2
--> err result_outside_its_subtype.adb:13:7: raised Constraint_Error
package Halves is
   function Half (N : Integer) return Positive;
end Halves;

package body Halves is
   function Half (N : Integer) return Positive is
   begin
      return N / 2;
   end Half;
end Halves;

with Ada.Text_IO; use Ada.Text_IO;
with Halves; use Halves;
procedure Main is
begin
   Put_Line (Integer'Image (Half (5)));
   Put_Line (Integer'Image (Half (1)));
end Main;
