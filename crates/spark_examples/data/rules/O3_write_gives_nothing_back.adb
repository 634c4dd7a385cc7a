--  O3: a write to what a moved name designates doesn't end the move of the name.
--> spark check O3_write_gives_nothing_back.adb
--> status 1
--> err O3_write_gives_nothing_back.adb:14:4: O3 X.all: moved
--> err O3_write_gives_nothing_back.adb:15:9: O1 X.all: moved
with Ada.Unchecked_Deallocation;
procedure Main is
   type Int_Ptr is access Integer;
   X, Y : Int_Ptr;
   N    : Integer;
begin
   X := new Integer'(1);
   Y := X;
   X.all := 2;
   N := X.all;
end Main;
