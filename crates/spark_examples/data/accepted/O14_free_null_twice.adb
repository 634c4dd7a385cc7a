--  O14: null may be freed, any number of times.
--> spark check O14_free_null_twice.adb
--> status 0
--> out accepted
with Ada.Unchecked_Deallocation;
procedure Main is
type Int_Ptr is access Integer;
procedure Free is new Ada.Unchecked_Deallocation (Integer, Int_Ptr);
X, Y : Int_Ptr;
N : Integer;
begin
X := null; Free (X); Free (X);
end Main;
