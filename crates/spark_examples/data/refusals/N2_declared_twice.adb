--  N2: no name is declared twice in one region, in whatever letter case.
--> spark check N2_declared_twice.adb
--> status 2
--> err N2_declared_twice.adb:8:4: N2 declared twice
with Ada.Unchecked_Deallocation;
procedure Main is
   N : Integer;
   n : Integer;
begin
   null;
end Main;
