--  O4: to assign a moved name to itself moves it again; after that it has a value.
--> spark check O4_self_assignment_of_moved.adb
--> status 1
--> err O4_self_assignment_of_moved.adb:13:9: O4 X: moved
with Ada.Unchecked_Deallocation;
procedure Main is
   type Int_Ptr is access Integer;
   X, Y : Int_Ptr;
   N    : Integer;
begin
   X := new Integer'(1);
   Y := X;
   X := X;
   N := X.all;
end Main;
