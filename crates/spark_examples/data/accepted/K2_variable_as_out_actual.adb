--  K2: a variable is the actual of an out formal.
--> spark check K2_variable_as_out_actual.adb
--> status 0
--> out accepted
package Numbers is
   procedure Clear (N : out Integer);
end Numbers;
package body Numbers is
   procedure Clear (N : out Integer) is
   begin
      N := 0;
   end Clear;
end Numbers;
with Numbers;
procedure Main is
   N : Integer;
begin
   Numbers.Clear (N);
end Main;
