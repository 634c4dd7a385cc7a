--  The second procedure borrows.
--> spark selftest 2
--> status 0
--> out selftest 2: output 3 bytes, steps 19, made 1, freed 1, leaked 0
procedure Main is
begin
   null;
end Main;
