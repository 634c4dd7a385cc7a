--  O3: the new owner may be written through.
--> spark check O3_through_the_new_owner.adb
--> status 0
--> out accepted
procedure Main is
   type Int_Ptr is access Integer;
   X : Int_Ptr := new Integer'(7);
   Y : Int_Ptr;
begin
   Y := X;
   Y.all := 8;
end Main;
