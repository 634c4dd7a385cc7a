--  O3: a loan lasts to the end of its block, though the observer is used no more.
--> spark check O3_observed_no_more.adb
--> status 1
--> err O3_observed_no_more.adb:14:7: O3 X.all: observed
procedure Main is
   type Int_Ptr is access Integer;
   X : Int_Ptr := new Integer'(1);
   N : Integer;
begin
   declare
      C : access constant Integer := X;
   begin
      N := C.all;
      X.all := 2;
   end;
end Main;
