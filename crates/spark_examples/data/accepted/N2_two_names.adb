--  N2: two names may be declared in one region.
--> spark check N2_two_names.adb
--> status 0
--> out accepted
with Ada.Unchecked_Deallocation;
procedure Main is
   N : Integer;
   M : Integer;
begin
   null;
end Main;
