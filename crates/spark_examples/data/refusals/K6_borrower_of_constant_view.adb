--  K6: a borrower doesn't borrow from an access-to-constant object.
--> spark check K6_borrower_of_constant_view.adb
--> status 2
--> err K6_borrower_of_constant_view.adb:9:26: K6 anonymous access out of place
procedure Main is
   type Link is access Integer;
   X : Link := new Integer'(1);
   C : access constant Integer := X;
   B : access Integer := C;
begin
   null;
end Main;
