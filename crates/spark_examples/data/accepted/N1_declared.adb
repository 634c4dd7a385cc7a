--  N1: a name that is declared is known.
--> spark check N1_declared.adb
--> status 0
--> out accepted
with Ada.Unchecked_Deallocation;
procedure Main is
   N : Integer;
begin
   N := 1;
end Main;
