--  G2: nine records with 64 access parts each can be moved here, which are 576 facts.
--> spark check G2_nine_records.adb
--> status 2
--> err G2_nine_records.adb:5:11: G2 too many facts
procedure Main is
   type Item is access Integer;
   type Eight is record
      A, B, C, D, E, F, G, H : Item;
   end record;
   type Many is record
      A, B, C, D, E, F, G, H : Eight;
   end record;
   P, Q, R, S, T, U, V, W, X, To : Many;
begin
   To := P;
   To := Q;
   To := R;
   To := S;
   To := T;
   To := U;
   To := V;
   To := W;
   To := X;
end Main;
