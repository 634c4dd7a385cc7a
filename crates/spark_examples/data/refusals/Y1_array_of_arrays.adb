--  Y1: the words of an array are those of its element times their number.
--> spark check Y1_array_of_arrays.adb
--> status 2
--> err Y1_array_of_arrays.adb:7:9: Y1 type too large
procedure Main is
   type Line is array (1 .. 256) of Boolean;
   type Screen is array (0 .. 256) of Line;
begin
   null;
end Main;
