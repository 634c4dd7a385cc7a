--  P3: there is no goto.
--> spark check P3_goto.adb
--> status 2
--> err P3_goto.adb:7:4: P3 construct left out
procedure Main is
begin
   goto Finish;
   null;
end Main;
