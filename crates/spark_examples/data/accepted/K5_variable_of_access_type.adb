--  K5: a variable may own an object.
--> spark check K5_variable_of_access_type.adb
--> status 0
--> out accepted
procedure Main is
   type Link is access Integer;
   X : Link := new Integer'(1);
begin
   null;
end Main;
