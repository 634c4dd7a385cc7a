package P is type T is private; private N : Integer; X : T := (1, 2, 3); type T is array (N) of Integer; end P;
