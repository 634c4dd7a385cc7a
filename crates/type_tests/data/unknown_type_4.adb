package P is end P; package body P is type Inner; type Link is access Inner; N : Integer; procedure R (L : Link) is  begin L.E := True; end R; type Inner is record E : N; end record; end P;
