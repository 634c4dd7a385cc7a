--  K1: a string stands in Put.
--> spark check K1_string_in_put.adb
--> status 0
--> out accepted
with Ada.Text_IO;
procedure Main is
begin
   Ada.Text_IO.Put ("a -- b" & Integer'Image (1));
end Main;
