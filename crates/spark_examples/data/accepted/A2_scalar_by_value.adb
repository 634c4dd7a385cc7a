--  A2: a scalar that is passed in is copied first, so the callee may write the object.
--> spark check A2_scalar_by_value.adb
--> status 0
--> out accepted
package Totals is
   Sum : Integer := 0;
   procedure Add (N : Integer);
end Totals;
package body Totals is
   procedure Add (N : Integer) is
   begin
      Sum := Sum + N;
      Sum := Sum + N;
   end Add;
end Totals;
with Totals;
procedure Main is
begin
   Totals.Add (Totals.Sum);
end Main;
