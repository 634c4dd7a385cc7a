--  N6: the name after end is that of the unit.
--> spark check N6_other_closing_name.adb
--> status 2
--> err N6_other_closing_name.adb:9:5: N6 closing name differs
with Ada.Unchecked_Deallocation;
procedure Main is
begin
   null;
end Mein;
