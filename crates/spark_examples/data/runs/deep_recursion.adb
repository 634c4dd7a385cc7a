--  A sum by 50,000 nested calls: each has a frame of a few words.
--> spark run deep_recursion.adb
--> status 0
--> out  1250025000
package Sums is
   function Sum (N : Natural) return Natural;
end Sums;

package body Sums is
   function Sum (N : Natural) return Natural is
   begin
      if N = 0 then
         return 0;
      end if;
      return N + Sum (N - 1);
   end Sum;
end Sums;

with Ada.Text_IO; use Ada.Text_IO;
with Sums; use Sums;
procedure Main is
begin
   Put_Line (Natural'Image (Sum (50_000)));
end Main;
