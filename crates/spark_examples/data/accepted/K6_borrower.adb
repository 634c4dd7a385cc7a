--  K6: a borrower has a name of an access type as its initial value.
--> spark check K6_borrower.adb
--> status 0
--> out accepted
procedure Main is
   type Link is access Integer;
   X : Link := new Integer'(1);
begin
   declare
      B : access Integer := X;
   begin
      B.all := 2;
   end;
end Main;
