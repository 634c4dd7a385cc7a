--  O1: the value is read through its new owner.
--> spark check O1_read_by_new_owner.adb
--> status 0
--> out accepted
with Ada.Unchecked_Deallocation;
procedure Main is
   type Int_Ptr is access Integer;
   procedure Free is new Ada.Unchecked_Deallocation (Integer, Int_Ptr);
   X, Y : Int_Ptr;
   N    : Integer;
begin
   X := new Integer'(7);
   Y := X;
   N := Y.all;
   Free (Y);
end Main;
