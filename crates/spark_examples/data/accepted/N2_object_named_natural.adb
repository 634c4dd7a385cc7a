--  N2: an object may be named Natural, which is no reserved word.
--> spark check N2_object_named_natural.adb
--> status 0
--> out accepted
with Ada.Unchecked_Deallocation;
procedure Main is
   Natural : Integer;
begin
   Natural := 1;
end Main;
