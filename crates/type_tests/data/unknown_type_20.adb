package P is type T is private; private N : Integer; X : T := (others => True); type T is array (1 .. 2) of N; end P;
