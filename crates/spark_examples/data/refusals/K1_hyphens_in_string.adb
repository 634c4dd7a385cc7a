--  K1: two hyphens within a string begin no comment, and a string is no value of an Integer.
--> spark check K1_hyphens_in_string.adb
--> status 2
--> err K1_hyphens_in_string.adb:9:9: K1 wrong type
with Ada.Unchecked_Deallocation;
procedure Main is
   N : Integer;
begin
   N := "a -- b";
end Main;
