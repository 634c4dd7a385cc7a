--  K1: what is freed is of the access type of the instance, and not what that designates.
--> spark check K1_designated_as_actual.adb
--> status 2
--> err K1_designated_as_actual.adb:12:10: K1 wrong type
with Ada.Unchecked_Deallocation;
procedure Main is
   type Int_Ptr is access Integer;
   procedure Free is new Ada.Unchecked_Deallocation (Integer, Int_Ptr);
   X : Int_Ptr;
begin
   X := new Integer'(1);
   Free (X.all);
end Main;
