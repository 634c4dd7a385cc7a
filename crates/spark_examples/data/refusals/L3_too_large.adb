--  L3: a number is at most 2147483648.
--> spark check L3_too_large.adb
--> status 2
--> err L3_too_large.adb:9:9: L3 bad number
with Ada.Unchecked_Deallocation;
procedure Main is
   N : Integer;
begin
   N := 2147483649;
end Main;
