--  P3: there are no renamings.
--> spark check P3_renames.adb
--> status 2
--> err P3_renames.adb:7:16: P3 construct left out
procedure Main is
   N : Integer := 1;
   M : Integer renames N;
begin
   null;
end Main;
