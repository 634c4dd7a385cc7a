--  O6: the new owner may be observed.
--> spark check O6_new_owner.adb
--> status 0
--> out accepted
procedure Main is
   type Int_Ptr is access Integer;
   X : Int_Ptr := new Integer'(1);
   Y : Int_Ptr;
   N : Integer;
begin
   Y := X;
   declare
      C : access constant Integer := Y;
   begin
      N := C.all;
   end;
end Main;
