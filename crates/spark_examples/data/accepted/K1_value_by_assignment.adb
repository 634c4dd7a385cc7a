--  K1: an object is given a value of its type by an assignment.
--> spark check K1_value_by_assignment.adb
--> status 0
--> out accepted
with Ada.Unchecked_Deallocation;
procedure Main is
   N : Integer;
begin
   N := 1;
   N := 2;
end Main;
