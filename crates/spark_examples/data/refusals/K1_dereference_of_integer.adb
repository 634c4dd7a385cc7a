--  K1: .all follows an object of an access type.
--> spark check K1_dereference_of_integer.adb
--> status 2
--> err K1_dereference_of_integer.adb:9:4: K1 wrong type
with Ada.Unchecked_Deallocation;
procedure Main is
   N : Integer;
begin
   N.all := 1;
end Main;
