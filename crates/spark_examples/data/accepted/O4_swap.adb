--  O4: a swap moves each of its three names once.
--> spark check O4_swap.adb
--> status 0
--> out accepted
with Ada.Unchecked_Deallocation;
procedure Main is
   type Int_Ptr is access Integer;
   X, Y, T : Int_Ptr;
   N       : Integer;
begin
   X := new Integer'(1);
   Y := new Integer'(2);
   T := X;
   X := Y;
   Y := T;
   N := X.all;
   N := Y.all;
end Main;
