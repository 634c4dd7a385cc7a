--  O4: the present owner may be moved from.
--> spark check O4_from_the_new_owner.adb
--> status 0
--> out accepted
procedure Main is
   type Int_Ptr is access Integer;
   X : Int_Ptr := new Integer'(1);
   Y, Z : Int_Ptr;
begin
   Y := X;
   Z := Y;
end Main;
