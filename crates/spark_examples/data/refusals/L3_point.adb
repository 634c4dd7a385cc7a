--  L3: no point with a digit follows a number, so there are no real literals.
--> spark check L3_point.adb
--> status 2
--> err L3_point.adb:9:9: L3 bad number
with Ada.Unchecked_Deallocation;
procedure Main is
   N : Integer;
begin
   N := 1.5;
end Main;
