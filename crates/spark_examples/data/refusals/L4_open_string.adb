--  L4: a string ends on its line.
--> spark check L4_open_string.adb
--> status 2
--> err L4_open_string.adb:9:9: L4 unclosed string
with Ada.Unchecked_Deallocation;
procedure Main is
   N : Integer;
begin
   N := "seven;
end Main;
