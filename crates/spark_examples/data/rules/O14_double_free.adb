--  O14: what was freed through its new owner may not be freed through the old name.
--> spark check O14_double_free.adb
--> status 1
--> err O14_double_free.adb:14:10: O14 X: moved
with Ada.Unchecked_Deallocation;
procedure Main is
   type Int_Ptr is access Integer;
   procedure Free is new Ada.Unchecked_Deallocation (Integer, Int_Ptr);
   X : Int_Ptr := new Integer'(7);
   Y : Int_Ptr;
begin
   Y := X;
   Free (Y);
   Free (X);
end Main;
