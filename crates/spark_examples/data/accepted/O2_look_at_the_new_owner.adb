--  O2: the new owner may be compared with null.
--> spark check O2_look_at_the_new_owner.adb
--> status 0
--> out accepted
procedure Main is
   type Int_Ptr is access Integer;
   X : Int_Ptr := new Integer'(7);
   Y : Int_Ptr;
begin
   Y := X;
   if Y /= null then
      X := Y;
   end if;
end Main;
