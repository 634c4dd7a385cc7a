--  O10: the new owner may be passed.
--> spark check O10_new_owner.adb
--> status 0
--> out accepted
package Boxes is
   type Int_Ptr is access Integer;
   procedure Clear (X : in out Int_Ptr);
end Boxes;
with Ada.Unchecked_Deallocation;
package body Boxes is
   procedure Free is new Ada.Unchecked_Deallocation (Integer, Int_Ptr);

   procedure Clear (X : in out Int_Ptr) is
   begin
      Free (X);
   end Clear;
end Boxes;
with Boxes; use Boxes;
procedure Main is
   X : Int_Ptr := new Integer'(1);
   Y : Int_Ptr;
begin
   Y := X;
   Clear (Y);
end Main;
