--  K7: 2147483648 stands only after a minus.
--> spark check K7_number_2147483648.adb
--> status 2
--> err K7_number_2147483648.adb:9:9: K7 not static
with Ada.Unchecked_Deallocation;
procedure Main is
   N : Integer;
begin
   N := 2147483648;
end Main;
