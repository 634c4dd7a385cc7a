--  N3: with its with clause a package is named.
--> spark check N3_with_clause.adb
--> status 0
--> out accepted
with Ada.Text_IO, Ada.Unchecked_Deallocation;
procedure Main is
begin
   Ada.Text_IO.New_Line;
end Main;
