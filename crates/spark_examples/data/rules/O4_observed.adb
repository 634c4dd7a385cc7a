--  O4: what is observed may not be moved.
--> spark check O4_observed.adb
--> status 1
--> err O4_observed.adb:14:12: O4 X: observed
procedure Main is
   type Int_Ptr is access Integer;
   X : Int_Ptr := new Integer'(1);
   Y : Int_Ptr;
   N : Integer;
begin
   declare
      C : access constant Integer := X;
   begin
      Y := X;
      N := C.all;
   end;
end Main;
