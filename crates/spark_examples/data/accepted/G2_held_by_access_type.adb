--  G2: a record that is held by an access type moves as one.
--> spark check G2_held_by_access_type.adb
--> status 0
--> out accepted
procedure Main is
   type Item is access Integer;
   type Eight is record
      A, B, C, D, E, F, G, H : Item;
   end record;
   type Many is record
      A, B, C, D, E, F, G, H : Eight;
   end record;
   type Many_Ptr is access Many;
   P, Q, R, S, T, U, V, W, X, To : Many_Ptr;
begin
   To := P;
   To := Q;
   To := R;
   To := S;
   To := T;
   To := U;
   To := V;
   To := W;
   To := X;
end Main;
