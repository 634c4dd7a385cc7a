--  P3: no exception is raised by a statement.
--> spark check P3_raise.adb
--> status 2
--> err P3_raise.adb:7:4: P3 construct left out
procedure Main is
begin
   raise Program_Error;
end Main;
