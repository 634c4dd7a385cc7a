--  O14: the new owner may be freed.
--> spark check O14_free_of_new_owner.adb
--> status 0
--> out accepted
with Ada.Unchecked_Deallocation;
procedure Main is
   type Int_Ptr is access Integer;
   procedure Free is new Ada.Unchecked_Deallocation (Integer, Int_Ptr);
   X, Y : Int_Ptr;
begin
   X := new Integer'(1);
   Y := X;
   Free (Y);
end Main;
