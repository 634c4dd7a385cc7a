package P is type T is private; private N : Integer; X : T := (V => (W => (True, null))); type T is record V : N; end record; end P;
