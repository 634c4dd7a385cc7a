--  O2: the borrower may be compared with null.
--> spark check O2_look_at_the_borrower.adb
--> status 0
--> out accepted
procedure Main is
   type Int_Ptr is access Integer;
   X : Int_Ptr := new Integer'(7);
begin
   declare
      B : access Integer := X;
   begin
      if B /= null then
         B.all := 8;
      end if;
   end;
end Main;
