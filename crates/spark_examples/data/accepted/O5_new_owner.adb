--  O5: the new owner may be borrowed.
--> spark check O5_new_owner.adb
--> status 0
--> out accepted
procedure Main is
   type Int_Ptr is access Integer;
   X : Int_Ptr := new Integer'(1);
   Y : Int_Ptr := X;
begin
   declare
      B : access Integer := Y;
   begin
      B.all := 2;
   end;
end Main;
