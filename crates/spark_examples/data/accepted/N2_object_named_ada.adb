--  N2: an object of a procedure may be named Ada, and hides the package.
--> spark check N2_object_named_ada.adb
--> status 0
--> out accepted
with Ada.Unchecked_Deallocation;
procedure Main is
   Ada : Integer;
begin
   Ada := 1;
end Main;
