--  O3: what is observed may not be written, neither in a part nor as a whole.
--> spark check O3_observed.adb
--> status 1
--> err O3_observed.adb:14:7: O3 X.all: observed
--> err O3_observed.adb:15:7: O3 X: observed
procedure Main is
   type Int_Ptr is access Integer;
   X : Int_Ptr := new Integer'(1);
   N : Integer;
begin
   declare
      C : access constant Integer := X;
   begin
      X.all := 2;
      X := new Integer'(C.all);
      N := C.all;
   end;
end Main;
