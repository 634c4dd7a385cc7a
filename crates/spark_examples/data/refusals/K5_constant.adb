--  K5: a constant owns nothing. Ada allows it.
--> spark check K5_constant.adb
--> status 2
--> err K5_constant.adb:7:4: K5 owning expression out of place
procedure Main is
   type Link is access Integer;
   X : constant Link := new Integer'(1);
begin
   null;
end Main;
