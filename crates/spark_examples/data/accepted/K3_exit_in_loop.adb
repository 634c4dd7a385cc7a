--  K3: an exit stands in a loop, in a block of its own here.
--> spark check K3_exit_in_loop.adb
--> status 0
--> out accepted
procedure Main is
begin
   loop
      begin
         exit;
      end;
   end loop;
end Main;
