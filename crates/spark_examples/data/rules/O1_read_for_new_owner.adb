--  O1: a read of the moved name is one also where its value goes to the new owner.
--> spark check O1_read_for_new_owner.adb
--> status 1
--> err O1_read_for_new_owner.adb:12:13: O1 X.all: moved
with Ada.Unchecked_Deallocation;
procedure Main is
   type Int_Ptr is access Integer;
   X, Y : Int_Ptr;
begin
   X := new Integer'(1);
   Y := X;
   Y.all := X.all;
end Main;
