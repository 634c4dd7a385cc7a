--  O1, O3, O4 and O14: one moved name, used in four ways; each use is reported.
--> spark check O1_O3_O4_O14_on_one_path.adb
--> status 1
--> err O1_O3_O4_O14_on_one_path.adb:17:9: O1 X.all: moved
--> err O1_O3_O4_O14_on_one_path.adb:18:4: O3 X.all: moved
--> err O1_O3_O4_O14_on_one_path.adb:19:9: O4 X: moved
--> err O1_O3_O4_O14_on_one_path.adb:20:10: O14 X: moved
with Ada.Unchecked_Deallocation;
procedure Main is
   type Int_Ptr is access Integer;
   procedure Free is new Ada.Unchecked_Deallocation (Integer, Int_Ptr);
   X, Y : Int_Ptr;
   N    : Integer;
begin
   X := new Integer'(1);
   Y := X;
   N := X.all;
   X.all := 2;
   Y := X;
   Free (X);
end Main;
