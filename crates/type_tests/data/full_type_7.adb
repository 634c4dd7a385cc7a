package P is type T is private; private C : constant T := T'Last; subtype S is T range C .. C; type T is (A, B); end P;
