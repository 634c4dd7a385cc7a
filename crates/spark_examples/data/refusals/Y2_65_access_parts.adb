--  Y2: a type has at most 64 access parts.
--> spark check Y2_65_access_parts.adb
--> status 2
--> err Y2_65_access_parts.adb:13:9: Y2 too many access parts
procedure Main is
   type Item is access Integer;
   type Eight is record
      A, B, C, D, E, F, G, H : Item;
   end record;
   type Many is record
      A, B, C, D, E, F, G, H : Eight;
   end record;
   type More is record
      First : Many;
      Last  : Item;
   end record;
begin
   null;
end Main;
