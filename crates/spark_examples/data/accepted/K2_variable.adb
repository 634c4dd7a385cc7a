--  K2: a variable is assigned to.
--> spark check K2_variable.adb
--> status 0
--> out accepted
procedure Main is
   Limit : Integer := 10;
begin
   Limit := 20;
end Main;
