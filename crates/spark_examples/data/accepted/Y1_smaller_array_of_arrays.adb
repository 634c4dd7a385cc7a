--  Y1: 256 elements of 256 words are as many words as there may be.
--> spark check Y1_smaller_array_of_arrays.adb
--> status 0
--> out accepted
procedure Main is
   type Line is array (1 .. 256) of Boolean;
   type Screen is array (0 .. 255) of Line;
begin
   null;
end Main;
