package P is type T is private; private N : Integer; X : T := (V => (W => 1 + True)); type T is record V : N; end record; end P;
