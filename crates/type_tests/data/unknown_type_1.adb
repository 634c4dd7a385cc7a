package P is end P; package body P is type Inner; type Link is access Inner; N : Integer; procedure R (L : Link) is B : Boolean; begin B := L.E; end R; type Inner is record E : N; end record; end P;
