--  K3: exit stands in a loop.
--> spark check K3_exit_outside_loop.adb
--> status 2
--> err K3_exit_outside_loop.adb:10:4: K3 wrong profile
procedure Main is
begin
   loop
      null;
   end loop;
   exit;
end Main;
