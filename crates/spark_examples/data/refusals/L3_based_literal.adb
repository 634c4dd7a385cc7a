--  L3: no number sign follows a number, so there are no based literals.
--> spark check L3_based_literal.adb
--> status 2
--> err L3_based_literal.adb:9:9: L3 bad number
with Ada.Unchecked_Deallocation;
procedure Main is
   N : Integer;
begin
   N := 16#F#;
end Main;
