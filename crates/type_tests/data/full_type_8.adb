package P is type T is private; private C : constant Boolean := T'First = T'Last; subtype S is Boolean range C .. C; type T is (A, B); end P;
