--  O3: the borrower may be written through.
--> spark check O3_through_the_borrower.adb
--> status 0
--> out accepted
procedure Main is
   type Int_Ptr is access Integer;
   X : Int_Ptr := new Integer'(1);
begin
   declare
      B : access Integer := X;
   begin
      B.all := 2;
   end;
   X.all := 3;
end Main;
