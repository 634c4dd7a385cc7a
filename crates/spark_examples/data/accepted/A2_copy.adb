--  A2: a copy of the package object may be passed.
--> spark check A2_copy.adb
--> status 0
--> out accepted
package Totals is
   Sum : Integer := 0;
   procedure Take (N : in out Integer);
end Totals;
package body Totals is
   procedure Take (N : in out Integer) is
   begin
      Sum := Sum + N;
      N := 0;
   end Take;
end Totals;
with Totals;
procedure Main is
   N : Integer := Totals.Sum;
begin
   Totals.Take (N);
end Main;
