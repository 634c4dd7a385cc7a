--  G2: each subprogram counts by itself.
--> spark check G2_two_procedures.adb
--> status 0
--> out accepted
package Parts is
   type Item is access Integer;
   type Eight is record
      A, B, C, D, E, F, G, H : Item;
   end record;
   type Many is record
      A, B, C, D, E, F, G, H : Eight;
   end record;
   procedure First;
   procedure Second;
end Parts;
package body Parts is
   procedure First is
      P, Q, R, S, T, To : Many;
   begin
      To := P;
      To := Q;
      To := R;
      To := S;
      To := T;
   end First;

   procedure Second is
      U, V, W, X, To : Many;
   begin
      To := U;
      To := V;
      To := W;
      To := X;
   end Second;
end Parts;
with Parts;
procedure Main is
begin
   Parts.First;
   Parts.Second;
end Main;
