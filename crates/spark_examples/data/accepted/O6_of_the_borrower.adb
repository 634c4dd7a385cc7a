--  O6: an object that is borrowed may be observed from the borrower.
--> spark check O6_of_the_borrower.adb
--> status 0
--> out accepted
procedure Main is
   type Int_Ptr is access Integer;
   X : Int_Ptr := new Integer'(1);
   N : Integer;
begin
   declare
      B : access Integer := X;
   begin
      B.all := 2;
      declare
         C : access constant Integer := B;
      begin
         N := C.all;
      end;
   end;
end Main;
