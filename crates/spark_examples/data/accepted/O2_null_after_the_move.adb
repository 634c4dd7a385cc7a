--  O2: a name that is null again may be compared.
--> spark check O2_null_after_the_move.adb
--> status 0
--> out accepted
procedure Main is
   type Int_Ptr is access Integer;
   X : Int_Ptr := new Integer'(7);
   Y : Int_Ptr;
begin
   Y := X;
   X := null;
   if X = null then
      Y.all := 8;
   end if;
end Main;
