package P is type T is private; private N : Integer; X : T := (V => (others => True)); type T is record V : N; end record; end P;
