--  O1: to read an Integer that was given no value breaks no rule.
--> spark check O1_no_value_yet.adb
--> status 0
--> out accepted
with Ada.Text_IO;
procedure Main is
   type Row is array (1 .. 3) of Integer;
   R : Row;
begin
   R (1) := 7;
   Ada.Text_IO.Put_Line (Integer'Image (R (1) + R (2)));
end Main;
