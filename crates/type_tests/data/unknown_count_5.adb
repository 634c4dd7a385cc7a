package P is type T is private; private N : Integer; X : T := (1, 2, 3); subtype S is Integer range 1 .. N; type T is array (S) of Integer; end P;
