--  O1: to free the new owner gives the moved name nothing back.
--> spark check O1_new_owner_freed.adb
--> status 1
--> err O1_new_owner_freed.adb:15:9: O1 X.all: moved
with Ada.Unchecked_Deallocation;
procedure Main is
   type Int_Ptr is access Integer;
   procedure Free is new Ada.Unchecked_Deallocation (Integer, Int_Ptr);
   X, Y : Int_Ptr;
   N    : Integer;
begin
   X := new Integer'(1);
   Y := X;
   Free (Y);
   N := X.all;
end Main;
