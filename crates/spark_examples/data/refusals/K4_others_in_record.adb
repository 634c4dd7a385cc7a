--  K4: others stands in an array aggregate alone. Ada allows it.
--> spark check K4_others_in_record.adb
--> status 2
--> err K4_others_in_record.adb:9:16: K4 choice missing or doubled
procedure Main is
   type Pair is record
      A, B : Integer;
   end record;
   X : Pair := (others => 0);
begin
   null;
end Main;
