--  P1: a relation has one relational operator.
--> spark check P1_two_relations.adb
--> status 2
--> err P1_two_relations.adb:8:15: P1 syntax
procedure Main is
   B : Boolean;
begin
   B := 1 < 2 < 3;
end Main;
