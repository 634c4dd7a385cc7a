--  What the product would be is tested by a quotient, which is always a value of Integer.
--> spark run product_tested_first.adb
--> status 0
--> out  479001600
--> out too large
package Factorials is
   function Factorial (N : Natural) return Natural;
end Factorials;

package body Factorials is
   function Factorial (N : Natural) return Natural is
      Product : Natural := 1;
   begin
      for I in 1 .. N loop
         if Product > Natural'Last / I then
            return 0;
         end if;
         Product := Product * I;
      end loop;
      return Product;
   end Factorial;
end Factorials;

with Ada.Text_IO; use Ada.Text_IO;
with Factorials; use Factorials;
procedure Main is
begin
   Put_Line (Natural'Image (Factorial (12)));
   if Factorial (13) = 0 then
      Put_Line ("too large");
   end if;
end Main;
