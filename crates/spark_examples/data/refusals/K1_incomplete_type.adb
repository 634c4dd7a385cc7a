--  K1: until it is complete, an incomplete type is named as a designated type alone.
--> spark check K1_incomplete_type.adb
--> status 2
--> err K1_incomplete_type.adb:7:12: K1 wrong type
procedure Main is
   type Cell;
   First : Cell;
   type Cell is record
      Value : Integer;
   end record;
begin
   null;
end Main;
