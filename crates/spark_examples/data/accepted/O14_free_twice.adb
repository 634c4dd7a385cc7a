--  O14: a freed name is null, and may be freed again.
--> spark check O14_free_twice.adb
--> status 0
--> out accepted
with Ada.Unchecked_Deallocation;
procedure Main is
   type Int_Ptr is access Integer;
   procedure Free is new Ada.Unchecked_Deallocation (Integer, Int_Ptr);
   X : Int_Ptr;
begin
   X := new Integer'(1);
   Free (X);
   Free (X);
end Main;
