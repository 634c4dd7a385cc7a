--  O1: a name that was moved is moved also where its value was null.
--> spark check O1_moved_null.adb
--> status 1
--> err O1_moved_null.adb:13:9: O1 X.all: moved
with Ada.Unchecked_Deallocation;
procedure Main is
   type Int_Ptr is access Integer;
   X, Y : Int_Ptr;
   N    : Integer;
begin
   X := null;
   Y := X;
   N := X.all;
end Main;
