--  L3: a number may not have two adjacent underscores.
--> spark check L3_double_underscore.adb
--> status 2
--> err L3_double_underscore.adb:9:9: L3 bad number
with Ada.Unchecked_Deallocation;
procedure Main is
   N : Integer;
begin
   N := 1__0;
end Main;
