--  K1: a subtype with the same bounds is the same.
--> spark check K1_same_bounds.adb
--> status 0
--> out accepted
procedure Main is
   subtype Number is Integer;
   type Link is access Integer;
   X : Link;
begin
   X := new Number'(1);
end Main;
