--  A2: an actual of the caller's own doesn't overlap a package object.
--> spark check A2_object_of_the_caller.adb
--> status 0
--> out accepted
package Totals is
   Sum : Integer := 0;
   procedure Take (N : in out Integer);
end Totals;
package body Totals is
   procedure Take (N : in out Integer) is
   begin
      Sum := Sum + N;
      N := 0;
   end Take;
end Totals;
with Totals;
procedure Main is
   N : Integer := 7;
begin
   Totals.Take (N);
end Main;
