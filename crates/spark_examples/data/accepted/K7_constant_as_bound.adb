--  K7: a constant with a static value is a bound.
--> spark check K7_constant_as_bound.adb
--> status 0
--> out accepted
procedure Main is
   Size : constant Integer := 10;
   type Row is array (1 .. Size) of Integer;
begin
   null;
end Main;
