--  K7: the bounds lie within those of the parent.
--> spark check K7_within_parent.adb
--> status 0
--> out accepted
procedure Main is
   subtype Digit is Natural range 0 .. 9;
   subtype Bit is Digit range 0 .. 1;
begin
   null;
end Main;
