--  O14: a name that was moved may not be freed.
--> spark check O14_free_after_move.adb
--> status 1
--> err O14_free_after_move.adb:12:15: O14 X: moved
with Ada.Unchecked_Deallocation;
procedure Main is
type Int_Ptr is access Integer;
procedure Free is new Ada.Unchecked_Deallocation (Integer, Int_Ptr);
X, Y : Int_Ptr;
N : Integer;
begin
Y := X; Free (X);
end Main;
