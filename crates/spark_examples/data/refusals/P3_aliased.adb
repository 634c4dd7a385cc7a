--  P3: no object is aliased.
--> spark check P3_aliased.adb
--> status 2
--> err P3_aliased.adb:6:8: P3 construct left out
procedure Main is
   N : aliased Integer;
begin
   null;
end Main;
