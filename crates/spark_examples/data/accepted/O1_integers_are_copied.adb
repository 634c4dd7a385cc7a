--  O1: an Integer is copied and never moved.
--> spark check O1_integers_are_copied.adb
--> status 0
--> out accepted
with Ada.Unchecked_Deallocation;
procedure Main is
   K, M, N : Integer;
begin
   N := 7;
   M := N;
   K := N;
   N := M;
end Main;
