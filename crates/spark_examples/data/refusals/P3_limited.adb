--  P3: no type is limited.
--> spark check P3_limited.adb
--> status 2
--> err P3_limited.adb:6:14: P3 construct left out
procedure Main is
   type T is limited private;
begin
   null;
end Main;
