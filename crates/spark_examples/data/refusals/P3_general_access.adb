--  P3: an access type designates objects that an allocator made, and no others.
--> spark check P3_general_access.adb
--> status 2
--> err P3_general_access.adb:6:21: P3 construct left out
procedure Main is
   type P is access all Integer;
begin
   null;
end Main;
