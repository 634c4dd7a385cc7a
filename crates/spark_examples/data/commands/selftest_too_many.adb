--  A self test has at most 10000 procedures.
--> spark selftest 10001
--> status 6
--> err usage: spark check FILE... | run [--steps=N] [--stats] FILE... | leaks FILE... | make N | selftest N
procedure Main is
begin
   null;
end Main;
