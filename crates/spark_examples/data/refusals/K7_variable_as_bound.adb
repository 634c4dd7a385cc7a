--  K7: the bounds of an array are static. Ada allows variables.
--> spark check K7_variable_as_bound.adb
--> status 2
--> err K7_variable_as_bound.adb:7:28: K7 not static
procedure Main is
   Size : Integer := 10;
   type Row is array (1 .. Size) of Integer;
begin
   null;
end Main;
