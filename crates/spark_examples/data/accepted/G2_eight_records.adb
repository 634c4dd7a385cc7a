--  G2: eight records with 64 access parts each can be moved, which are 512 facts.
--> spark check G2_eight_records.adb
--> status 0
--> out accepted
procedure Main is
   type Item is access Integer;
   type Eight is record
      A, B, C, D, E, F, G, H : Item;
   end record;
   type Many is record
      A, B, C, D, E, F, G, H : Eight;
   end record;
   P, Q, R, S, T, U, V, W, To : Many;
begin
   To := P;
   To := Q;
   To := R;
   To := S;
   To := T;
   To := U;
   To := V;
   To := W;
end Main;
