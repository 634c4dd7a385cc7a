--  L3: 2147483647 is the largest value of an Integer, and zeros may stand before a number.
--> spark check L3_largest_number.adb
--> status 0
--> out accepted
with Ada.Unchecked_Deallocation;
procedure Main is
   type Int_Ptr is access Integer;
   X : Int_Ptr;
   N : Integer;
begin
   N := 2147483647;
   N := 007;
   X := new Integer'(00000000002147483647);
end Main;
