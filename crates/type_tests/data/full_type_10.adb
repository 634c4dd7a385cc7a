package P is type T is private; subtype S is T range T'First .. T'Last; private type T is (A, B); end P;
