--  A2: a procedure that uses the package object under its own name doesn't take it, too.
--> spark check A2_without_the_formal.adb
--> status 0
--> out accepted
package Totals is
   Sum : Integer := 0;
   procedure Double;
end Totals;
package body Totals is
   procedure Double is
   begin
      Sum := Sum + Sum;
   end Double;
end Totals;
with Totals;
procedure Main is
begin
   Totals.Double;
end Main;
