--  O14: each access type has an instance of its own, and each moved name is reported.
--> spark check O14_two_types.adb
--> status 1
--> err O14_two_types.adb:19:10: O14 A: moved
--> err O14_two_types.adb:20:10: O14 P: moved
with Ada.Unchecked_Deallocation;
procedure Main is
   type Small is access Integer;
   type Large is access Integer;
   procedure Free is new Ada.Unchecked_Deallocation (Integer, Small);
   procedure Drop is new Ada.Unchecked_Deallocation (Integer, Large);
   A, B : Small;
   P, Q : Large;
begin
   A := new Integer'(1);
   P := new Integer'(2);
   B := A;
   Q := P;
   Free (A);
   Drop (P);
end Main;
