--  P1: there are no character literals, so no operand begins with an apostrophe.
--> spark check P1_character_literal.adb
--> status 2
--> err P1_character_literal.adb:8:9: P1 syntax
procedure Main is
   C : Character;
begin
   C := 'a';
end Main;
