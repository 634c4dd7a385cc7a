--  The subtype of the result has each value that is returned.
--> spark run result_within_its_subtype.adb
--> status 0
--> out  2
--> out  0
package Halves is
   function Half (N : Integer) return Natural;
end Halves;

package body Halves is
   function Half (N : Integer) return Natural is
   begin
      return N / 2;
   end Half;
end Halves;

with Ada.Text_IO; use Ada.Text_IO;
with Halves; use Halves;
procedure Main is
begin
   Put_Line (Integer'Image (Half (5)));
   Put_Line (Integer'Image (Half (1)));
end Main;
