--  O2: what is borrowed may not be compared with null.
--> spark check O2_borrowed.adb
--> status 1
--> err O2_borrowed.adb:12:10: O2 X: borrowed
procedure Main is
   type Int_Ptr is access Integer;
   X : Int_Ptr := new Integer'(7);
begin
   declare
      B : access Integer := X;
   begin
      if X /= null then
         B.all := 8;
      end if;
   end;
end Main;
