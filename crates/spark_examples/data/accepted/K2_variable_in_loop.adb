--  K2: a variable is assigned to in a loop.
--> spark check K2_variable_in_loop.adb
--> status 0
--> out accepted
procedure Main is
   Sum : Integer := 0;
begin
   for I in 1 .. 10 loop
      Sum := Sum + I;
   end loop;
end Main;
