--  O4: a name that was moved may not be moved again.
--> spark check O4_move_after_move.adb
--> status 1
--> err O4_move_after_move.adb:12:9: O4 X: moved
with Ada.Unchecked_Deallocation;
procedure Main is
   type Int_Ptr is access Integer;
   X, Y, Z : Int_Ptr;
begin
   X := new Integer'(1);
   Y := X;
   Z := X;
end Main;
