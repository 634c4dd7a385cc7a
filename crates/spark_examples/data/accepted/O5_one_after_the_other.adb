--  O5: the second block borrows what the first one gave back.
--> spark check O5_one_after_the_other.adb
--> status 0
--> out accepted
procedure Main is
   type Int_Ptr is access Integer;
   X : Int_Ptr := new Integer'(1);
begin
   declare
      B : access Integer := X;
   begin
      B.all := 2;
   end;
   declare
      C : access Integer := X;
   begin
      C.all := 3;
   end;
end Main;
