--  O3: after the block of the borrower the object may be written again.
--> spark check O3_written_after_the_block.adb
--> status 0
--> out accepted
procedure Main is
   type Int_Ptr is access Integer;
   X : Int_Ptr := new Integer'(1);
begin
   declare
      B : access Integer := X;
   begin
      B.all := 3;
   end;
   X.all := 2;
end Main;
