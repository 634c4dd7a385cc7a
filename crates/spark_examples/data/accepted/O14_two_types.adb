--  O14: each access type has an instance of its own, and each new owner may be freed.
--> spark check O14_two_types.adb
--> status 0
--> out accepted
with Ada.Unchecked_Deallocation;
procedure Main is
   type Small is access Integer;
   type Large is access Integer;
   procedure Free is new Ada.Unchecked_Deallocation (Integer, Small);
   procedure Drop is new Ada.Unchecked_Deallocation (Integer, Large);
   A, B : Small;
   P, Q : Large;
begin
   A := new Integer'(1);
   P := new Integer'(2);
   B := A;
   Q := P;
   Free (B);
   Drop (Q);
end Main;
