--  O6: what is borrowed may not be observed.
--> spark check O6_borrowed.adb
--> status 1
--> err O6_borrowed.adb:12:38: O6 X: borrowed
procedure Main is
   type Int_Ptr is access Integer;
   X : Int_Ptr := new Integer'(1);
   N : Integer;
begin
   declare
      B : access Integer := X;
      C : access constant Integer := X;
   begin
      B.all := 2;
      N := C.all;
   end;
end Main;
