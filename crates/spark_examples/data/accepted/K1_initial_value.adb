--  K1: an object is declared with a value of its type.
--> spark check K1_initial_value.adb
--> status 0
--> out accepted
with Ada.Unchecked_Deallocation;
procedure Main is
   N : Integer := 1;
begin
   N := 2;
end Main;
