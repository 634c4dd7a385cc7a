--  The third one observes.
--> spark selftest 3
--> status 0
--> out selftest 3: output 3 bytes, steps 29, made 1, freed 1, leaked 0
procedure Main is
begin
   null;
end Main;
