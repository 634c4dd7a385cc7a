--  K4: a record aggregate has each component once.
--> spark check K4_missing_component.adb
--> status 2
--> err K4_missing_component.adb:9:16: K4 choice missing or doubled
procedure Main is
   type Pair is record
      A, B : Integer;
   end record;
   X : Pair := (A => 1);
begin
   null;
end Main;
