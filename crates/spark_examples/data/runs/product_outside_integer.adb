--  The factorial of 13 is no value of Integer.
--> spark run product_outside_integer.adb
--> status 3
--> out  479001600
--> err product_outside_integer.adb:16:7: raised Constraint_Error
package Factorials is
   function Factorial (N : Natural) return Positive;
end Factorials;

package body Factorials is
   function Factorial (N : Natural) return Positive is
   begin
      if N = 0 then
         return 1;
      end if;
      return N * Factorial (N - 1);
   end Factorial;
end Factorials;

with Ada.Text_IO; use Ada.Text_IO;
with Factorials; use Factorials;
procedure Main is
begin
   Put_Line (Positive'Image (Factorial (12)));
   Put_Line (Positive'Image (Factorial (13)));
end Main;
