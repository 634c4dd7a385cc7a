--  K7: a loop over a subtype without values has no iteration.
--> spark check K7_loop_without_iterations.adb
--> status 0
--> out accepted
procedure Main is
   subtype None is Integer range 1 .. 0;
begin
   for N in None loop
      null;
   end loop;
end Main;
