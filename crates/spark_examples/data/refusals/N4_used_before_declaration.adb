--  N4: a type is declared before an object of it.
--> spark check N4_used_before_declaration.adb
--> status 2
--> err N4_used_before_declaration.adb:7:8: N4 used before its declaration
with Ada.Unchecked_Deallocation;
procedure Main is
   X : Int_Ptr;
   type Int_Ptr is access Integer;
begin
   null;
end Main;
