--  N2: a record has one component of a name.
--> spark check N2_component.adb
--> status 2
--> err N2_component.adb:8:7: N2 declared twice
procedure Main is
   type Cell is record
      Value : Integer;
      value : Integer;
   end record;
begin
   null;
end Main;
