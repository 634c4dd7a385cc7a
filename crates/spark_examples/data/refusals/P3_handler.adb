--  P3: there are no handlers of exceptions.
--> spark check P3_handler.adb
--> status 2
--> err P3_handler.adb:8:1: P3 construct left out
procedure Main is
begin
   null;
exception
   when others => null;
end Main;
