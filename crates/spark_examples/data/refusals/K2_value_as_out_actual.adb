--  K2: the actual of an out formal is a name of a variable.
--> spark check K2_value_as_out_actual.adb
--> status 2
--> err K2_value_as_out_actual.adb:18:19: K2 not a variable
package Numbers is
   procedure Clear (N : out Integer);
end Numbers;
package body Numbers is
   procedure Clear (N : out Integer) is
   begin
      N := 0;
   end Clear;
end Numbers;
with Numbers;
procedure Main is
   N : Integer;
begin
   Numbers.Clear (1 + 1);
end Main;
