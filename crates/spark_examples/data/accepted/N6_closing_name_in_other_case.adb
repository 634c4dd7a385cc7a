--  N6: the name after end is the procedure's, in any letter case.
--> spark check N6_closing_name_in_other_case.adb
--> status 0
--> out accepted
with Ada.Unchecked_Deallocation;
procedure Main is
   N : Integer;
begin
   N := 1;
end MAIN;
