--  The function calls itself without an end. Where the frames have no more room, the call raises
--  Storage_Error.
--> spark run endless_recursion.adb
--> status 3
--> err endless_recursion.adb:13:18: raised Storage_Error
package Sums is
   function Sum (N : Natural) return Natural;
end Sums;

package body Sums is
   function Sum (N : Natural) return Natural is
   begin
      return N + Sum (N / 2);
   end Sum;
end Sums;

with Ada.Text_IO; use Ada.Text_IO;
with Sums; use Sums;
procedure Main is
begin
   Put_Line (Natural'Image (Sum (1)));
end Main;
