--  O5: what one object borrows no other one may borrow, until the block of the first ends.
--> spark check O5_two_borrowers.adb
--> status 1
--> err O5_two_borrowers.adb:11:29: O5 X: borrowed
procedure Main is
   type Int_Ptr is access Integer;
   X : Int_Ptr := new Integer'(1);
begin
   declare
      B : access Integer := X;
      C : access Integer := X;
   begin
      B.all := 2;
      C.all := 3;
   end;
end Main;
