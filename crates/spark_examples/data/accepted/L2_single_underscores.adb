--  L2: an underscore stands between letters or digits.
--> spark check L2_single_underscores.adb
--> status 0
--> out accepted
with Ada.Unchecked_Deallocation;
procedure Main is
   type Int_Ptr_2 is access Integer;
   A_1, B_2_C : Int_Ptr_2;
begin
   A_1 := null;
   B_2_C := A_1;
end Main;
