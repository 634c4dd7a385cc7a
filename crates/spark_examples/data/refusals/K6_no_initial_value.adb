--  K6: an object of an anonymous access type has an initial value. Ada allows none.
--> spark check K6_no_initial_value.adb
--> status 2
--> err K6_no_initial_value.adb:10:7: K6 anonymous access out of place
procedure Main is
   type Link is access Integer;
   X : Link := new Integer'(1);
begin
   declare
      B : access Integer;
   begin
      B.all := 2;
   end;
end Main;
