--  K2: the parameter of a for loop isn't assigned to.
--> spark check K2_loop_parameter.adb
--> status 2
--> err K2_loop_parameter.adb:8:7: K2 not a variable
procedure Main is
begin
   for I in 1 .. 10 loop
      I := I + 1;
   end loop;
end Main;
