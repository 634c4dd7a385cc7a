--  L1: within a string a byte that is no graphic character is refused at its place.
--> spark check L1_tab_in_string.adb
--> status 2
--> err L1_tab_in_string.adb:9:11: L1 bad byte
with Ada.Unchecked_Deallocation;
procedure Main is
   N : Integer;
begin
   N := "a	b";
end Main;
