--  K3: a function is called in an expression.
--> spark check K3_function_as_value.adb
--> status 0
--> out accepted
package Numbers is
   function One return Integer;
end Numbers;
package body Numbers is
   function One return Integer is
   begin
      return 1;
   end One;
end Numbers;
with Numbers;
procedure Main is
   N : Integer;
begin
   N := Numbers.One;
end Main;
