--  O1: a column is a byte, so a tab is one column.
--> spark check O1_tab_is_one_column.adb
--> status 1
--> err O1_tab_is_one_column.adb:13:7: O1 X.all: moved
with Ada.Unchecked_Deallocation;
procedure Main is
   type Int_Ptr is access Integer;
   X, Y : Int_Ptr;
   N    : Integer;
begin
	X := new Integer'(1);
	Y := X;
	N := X.all;
end Main;
