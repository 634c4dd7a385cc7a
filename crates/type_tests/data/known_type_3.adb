package P is type T is private; private N : Integer; X : T := (True, 1, 2); type T is array (1 .. N) of Integer; end P;
