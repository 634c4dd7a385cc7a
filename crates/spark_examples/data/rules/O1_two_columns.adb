--  O1: reports on one line stand in the order of their columns.
--> spark check O1_two_columns.adb
--> status 1
--> err O1_two_columns.adb:15:9: O1 X.all: moved
--> err O1_two_columns.adb:15:21: O1 Y.all: moved
with Ada.Unchecked_Deallocation;
procedure Main is
   type Int_Ptr is access Integer;
   X, Y, Z : Int_Ptr;
   M, N    : Integer;
begin
   X := new Integer'(1);
   Y := X;
   Z := Y;
   N := X.all; M := Y.all;
end Main;
