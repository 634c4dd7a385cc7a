package P is type T is private; private N : Integer; X : T := new Integer; type T is access N; end P;
