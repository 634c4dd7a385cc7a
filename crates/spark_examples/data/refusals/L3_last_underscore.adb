--  L3: a number may not end with an underscore.
--> spark check L3_last_underscore.adb
--> status 2
--> err L3_last_underscore.adb:9:9: L3 bad number
with Ada.Unchecked_Deallocation;
procedure Main is
   N : Integer;
begin
   N := 10_;
end Main;
