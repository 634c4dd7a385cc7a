--  The program needs two steps: the null statement and the end of the main procedure.
--> spark run --steps=1 steps_are_spent.adb
--> status 4
--> err steps spent: 1
procedure Main is
begin
   null;
end Main;
