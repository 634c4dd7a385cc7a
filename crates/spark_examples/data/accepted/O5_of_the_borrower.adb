--  O5: an object that is borrowed may be borrowed from the borrower.
--> spark check O5_of_the_borrower.adb
--> status 0
--> out accepted
procedure Main is
   type Int_Ptr is access Integer;
   X : Int_Ptr := new Integer'(1);
begin
   declare
      B : access Integer := X;
   begin
      declare
         C : access Integer := B;
      begin
         C.all := 2;
      end;
      B.all := 3;
   end;
end Main;
