--  K5: what owns an object stands without parentheses. Ada allows it.
--> spark check K5_parentheses.adb
--> status 2
--> err K5_parentheses.adb:11:9: K5 owning expression out of place
with Ada.Unchecked_Deallocation;
procedure Main is
   type Link is access Integer;
   X, Y : Link;
begin
   X := new Integer'(1);
   Y := (X);
end Main;
