--  P3: there are no tasks.
--> spark check P3_task.adb
--> status 2
--> err P3_task.adb:6:4: P3 construct left out
procedure Main is
   task Worker;
begin
   null;
end Main;
