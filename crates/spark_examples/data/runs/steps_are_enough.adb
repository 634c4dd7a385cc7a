--  With a budget of two steps the program of steps_are_spent ends.
--> spark run --steps=2 steps_are_enough.adb
--> status 0
procedure Main is
begin
   null;
end Main;
