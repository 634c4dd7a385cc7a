--  N3: a package is named only in a unit with a with clause for it.
--> spark check N3_no_with_clause.adb
--> status 2
--> err N3_no_with_clause.adb:8:8: N3 not visible
with Ada.Unchecked_Deallocation;
procedure Main is
begin
   Ada.Text_IO.New_Line;
end Main;
