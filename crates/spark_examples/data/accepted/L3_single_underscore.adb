--  L3: an underscore stands between two digits.
--> spark check L3_single_underscore.adb
--> status 0
--> out accepted
with Ada.Unchecked_Deallocation;
procedure Main is
   N : Integer;
begin
   N := 1_000;
end Main;
