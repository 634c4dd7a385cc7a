--  One procedure, which allocates.
--> spark selftest 1
--> status 0
--> out selftest 1: output 3 bytes, steps 14, made 1, freed 1, leaked 0
procedure Main is
begin
   null;
end Main;
