package P is type T is private; private subtype S is T range T'First .. T'Last; type T is (A, B); X : S := A; end P;
