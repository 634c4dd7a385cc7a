--  Four of ten procedures allocate.
--> spark selftest 10
--> status 0
--> out selftest 10: output 4 bytes, steps 89, made 4, freed 4, leaked 0
procedure Main is
begin
   null;
end Main;
