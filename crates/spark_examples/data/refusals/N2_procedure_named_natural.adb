--  N2: a library procedure stands in the region that has Natural.
--> spark check N2_procedure_named_natural.adb
--> status 2
--> err N2_procedure_named_natural.adb:6:11: N2 declared twice
with Ada.Unchecked_Deallocation;
procedure Natural is
begin
   null;
end Natural;
