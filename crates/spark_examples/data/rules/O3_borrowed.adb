--  O3: what is borrowed may be written through the borrower alone, to the end of its block.
--> spark check O3_borrowed.adb
--> status 1
--> err O3_borrowed.adb:12:7: O3 X.all: borrowed
procedure Main is
   type Int_Ptr is access Integer;
   X : Int_Ptr := new Integer'(1);
begin
   declare
      B : access Integer := X;
   begin
      X.all := 2;
      B.all := 3;
   end;
end Main;
