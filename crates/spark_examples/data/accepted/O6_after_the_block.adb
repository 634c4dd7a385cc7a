--  O6: after the block of the borrower the object may be observed.
--> spark check O6_after_the_block.adb
--> status 0
--> out accepted
procedure Main is
   type Int_Ptr is access Integer;
   X : Int_Ptr := new Integer'(1);
   N : Integer;
begin
   declare
      B : access Integer := X;
   begin
      B.all := 2;
   end;
   declare
      C : access constant Integer := X;
   begin
      N := C.all;
   end;
end Main;
