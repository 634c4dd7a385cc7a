--  N2: there is one library procedure.
--> spark check N2_second_procedure.adb
--> status 2
--> err N2_second_procedure.adb:10:11: N2 declared twice
with Ada.Unchecked_Deallocation;
procedure Main is
begin
   null;
end Main;
procedure Other is
begin
   null;
end Other;
