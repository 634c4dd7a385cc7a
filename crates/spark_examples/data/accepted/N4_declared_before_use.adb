--  N4: an object may be of a type that is declared before it.
--> spark check N4_declared_before_use.adb
--> status 0
--> out accepted
with Ada.Unchecked_Deallocation;
procedure Main is
   type Int_Ptr is access Integer;
   X : Int_Ptr;
begin
   null;
end Main;
