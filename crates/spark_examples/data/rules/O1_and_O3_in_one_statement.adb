--  O1 and O3: the source is read before the target is written, and reports stand in the order of the text.
--> spark check O1_and_O3_in_one_statement.adb
--> status 1
--> err O1_and_O3_in_one_statement.adb:13:4: O3 X.all: moved
--> err O1_and_O3_in_one_statement.adb:13:13: O1 X.all: moved
with Ada.Unchecked_Deallocation;
procedure Main is
   type Int_Ptr is access Integer;
   X, Y : Int_Ptr;
begin
   X := new Integer'(1);
   Y := X;
   X.all := X.all;
end Main;
