--  K1: null is no value of an Integer.
--> spark check K1_null_for_integer.adb
--> status 2
--> err K1_null_for_integer.adb:9:9: K1 wrong type
with Ada.Unchecked_Deallocation;
procedure Main is
   N : Integer;
begin
   N := null;
end Main;
