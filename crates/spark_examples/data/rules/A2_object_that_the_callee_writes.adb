--  A2: an actual that is changed may not be a package object that the callee uses.
--> spark check A2_object_that_the_callee_writes.adb
--> status 1
--> err A2_object_that_the_callee_writes.adb:19:17: A2 Totals.Sum: overlaps a global of the callee
package Totals is
   Sum : Integer := 0;
   procedure Take (N : in out Integer);
end Totals;
package body Totals is
   procedure Take (N : in out Integer) is
   begin
      Sum := Sum + N;
      N := 0;
   end Take;
end Totals;
with Totals;
procedure Main is
begin
   Totals.Take (Totals.Sum);
end Main;
