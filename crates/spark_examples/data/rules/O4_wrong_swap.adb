--  O4: the spare object of a swap may be moved only once.
--> spark check O4_wrong_swap.adb
--> status 1
--> err O4_wrong_swap.adb:14:9: O4 T: moved
with Ada.Unchecked_Deallocation;
procedure Main is
   type Int_Ptr is access Integer;
   X, Y, T : Int_Ptr;
begin
   X := new Integer'(1);
   Y := new Integer'(2);
   T := X;
   X := T;
   Y := T;
end Main;
