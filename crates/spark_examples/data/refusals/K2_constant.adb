--  K2: a constant isn't assigned to.
--> spark check K2_constant.adb
--> status 2
--> err K2_constant.adb:8:4: K2 not a variable
procedure Main is
   Limit : constant Integer := 10;
begin
   Limit := 20;
end Main;
