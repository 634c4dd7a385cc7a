package P is end P; package body P is type Inner; type Link is access Inner; N : Integer; procedure R (L : Link) is B : Boolean; begin B := L (1); end R; type Inner is array (1 .. 2) of N; end P;
