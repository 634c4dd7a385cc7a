--  K5: a name alone moves its value.
--> spark check K5_no_parentheses.adb
--> status 0
--> out accepted
with Ada.Unchecked_Deallocation;
procedure Main is
   type Link is access Integer;
   X, Y : Link;
begin
   X := new Integer'(1);
   Y := X;
end Main;
