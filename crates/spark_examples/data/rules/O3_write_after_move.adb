--  O3: nothing may be written through a name that was moved.
--> spark check O3_write_after_move.adb
--> status 1
--> err O3_write_after_move.adb:12:4: O3 X.all: moved
with Ada.Unchecked_Deallocation;
procedure Main is
   type Int_Ptr is access Integer;
   X, Y : Int_Ptr;
begin
   X := new Integer'(1);
   Y := X;
   X.all := 1;
end Main;
