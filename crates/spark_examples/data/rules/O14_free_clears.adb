--  O14: a free is reported once, since the name is null after it.
--> spark check O14_free_clears.adb
--> status 1
--> err O14_free_clears.adb:13:10: O14 X: moved
with Ada.Unchecked_Deallocation;
procedure Main is
   type Int_Ptr is access Integer;
   procedure Free is new Ada.Unchecked_Deallocation (Integer, Int_Ptr);
   X, Y : Int_Ptr;
begin
   X := new Integer'(1);
   Y := X;
   Free (X);
   Free (X);
end Main;
