--  A self test has at least one procedure.
--> spark selftest 0
--> status 6
--> err usage: spark check FILE... | run [--steps=N] [--stats] FILE... | leaks FILE... | make N | selftest N
procedure Main is
begin
   null;
end Main;
