--  L3: no letter follows a number, so there are no exponents.
--> spark check L3_exponent.adb
--> status 2
--> err L3_exponent.adb:9:9: L3 bad number
with Ada.Unchecked_Deallocation;
procedure Main is
   N : Integer;
begin
   N := 1E3;
end Main;
