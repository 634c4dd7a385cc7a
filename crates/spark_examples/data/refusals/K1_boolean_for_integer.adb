--  K1: a value has the type of the object that it is assigned to.
--> spark check K1_boolean_for_integer.adb
--> status 2
--> err K1_boolean_for_integer.adb:9:9: K1 wrong type
with Ada.Unchecked_Deallocation;
procedure Main is
   N : Integer;
begin
   N := True;
end Main;
