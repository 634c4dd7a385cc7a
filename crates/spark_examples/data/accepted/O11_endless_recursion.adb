--  O11: whether calls come to an end is no matter of ownership.
--> spark check O11_endless_recursion.adb
--> status 0
--> out accepted
package Sums is
   function Sum (N : Integer) return Integer;
end Sums;
package body Sums is
   function Sum (N : Integer) return Integer is
   begin
      if N = 0 then
         return 0;
      end if;
      return N + Sum (N - 1);
   end Sum;
end Sums;
with Ada.Text_IO;
with Sums;
procedure Main is
begin
   Ada.Text_IO.Put_Line (Integer'Image (Sums.Sum (-3)));
end Main;
