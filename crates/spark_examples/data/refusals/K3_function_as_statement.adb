--  K3: a call statement calls a procedure or an instance.
--> spark check K3_function_as_statement.adb
--> status 2
--> err K3_function_as_statement.adb:17:4: K3 wrong profile
package Numbers is
   function One return Integer;
end Numbers;
package body Numbers is
   function One return Integer is
   begin
      return 1;
   end One;
end Numbers;
with Numbers;
procedure Main is
begin
   Numbers.One;
end Main;
