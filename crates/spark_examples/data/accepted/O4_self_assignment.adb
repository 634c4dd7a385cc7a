--  O4: to assign a name to itself moves its value out and back in.
--> spark check O4_self_assignment.adb
--> status 0
--> out accepted
with Ada.Unchecked_Deallocation;
procedure Main is
   type Int_Ptr is access Integer;
   X : Int_Ptr;
   N : Integer;
begin
   X := new Integer'(1);
   X := X;
   N := X.all;
end Main;
