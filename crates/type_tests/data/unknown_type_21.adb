with Ada.Unchecked_Deallocation; package P is type T is private; private N : Integer; procedure Free is new Ada.Unchecked_Deallocation (Boolean, T); type T is access N; end P;
