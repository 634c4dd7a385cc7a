--  K6: a borrower borrows from a name or a traversal call. Ada allows it.
--> spark check K6_borrower_of_null.adb
--> status 2
--> err K6_borrower_of_null.adb:10:29: K6 anonymous access out of place
procedure Main is
   type Link is access Integer;
   X : Link := new Integer'(1);
begin
   declare
      B : access Integer := null;
   begin
      B.all := 2;
   end;
end Main;
