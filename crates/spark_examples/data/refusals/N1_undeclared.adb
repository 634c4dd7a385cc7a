--  N1: a name has a declaration.
--> spark check N1_undeclared.adb
--> status 2
--> err N1_undeclared.adb:9:4: N1 unknown name
with Ada.Unchecked_Deallocation;
procedure Main is
   N : Integer;
begin
   M := 1;
end Main;
