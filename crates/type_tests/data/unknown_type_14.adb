package P is end P; package body P is type Inner; type Link is access Inner; N : Integer; procedure R (L : Link) is B : Boolean; begin B := L.all.all; end R; type Inner is access N; end P;
