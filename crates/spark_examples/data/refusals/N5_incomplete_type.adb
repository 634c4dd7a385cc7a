--  N5: an incomplete type has its full type.
--> spark check N5_incomplete_type.adb
--> status 2
--> err N5_incomplete_type.adb:6:9: N5 body missing
procedure Main is
   type Cell;
   type Cell_Ptr is access Cell;
begin
   null;
end Main;
