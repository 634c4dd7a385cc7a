--  L1: outside comments and strings a letter is one of A to Z.
--> spark check L1_letter_with_accent.adb
--> status 2
--> err L1_letter_with_accent.adb:7:5: L1 bad byte
with Ada.Unchecked_Deallocation;
procedure Main is
   Zähler : Integer;
begin
   null;
end Main;
