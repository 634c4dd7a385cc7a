--  P3: there are no derived types.
--> spark check P3_derived_type.adb
--> status 2
--> err P3_derived_type.adb:6:14: P3 construct left out
procedure Main is
   type T is new Integer;
begin
   null;
end Main;
