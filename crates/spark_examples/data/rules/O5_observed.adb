--  O5: what is observed may not be borrowed.
--> spark check O5_observed.adb
--> status 1
--> err O5_observed.adb:12:29: O5 X: observed
procedure Main is
   type Int_Ptr is access Integer;
   X : Int_Ptr := new Integer'(1);
   N : Integer;
begin
   declare
      C : access constant Integer := X;
      B : access Integer := X;
   begin
      B.all := 2;
      N := C.all;
   end;
end Main;
