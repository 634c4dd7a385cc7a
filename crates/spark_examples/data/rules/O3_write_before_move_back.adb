--  O3: nothing may be written through a name that was moved, until it is given its value back.
--> spark check O3_write_before_move_back.adb
--> status 1
--> err O3_write_before_move_back.adb:12:9: O3 X.all: moved
with Ada.Unchecked_Deallocation;
procedure Main is
type Int_Ptr is access Integer;
procedure Free is new Ada.Unchecked_Deallocation (Integer, Int_Ptr);
X, Y : Int_Ptr;
N : Integer;
begin
Y := X; X.all := 1; X := Y; X.all := 1;
end Main;
