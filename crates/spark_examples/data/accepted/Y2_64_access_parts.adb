--  Y2: a type with 64 access parts hasn't too many.
--> spark check Y2_64_access_parts.adb
--> status 0
--> out accepted
procedure Main is
   type Item is access Integer;
   type Eight is record
      A, B, C, D, E, F, G, H : Item;
   end record;
   type Many is record
      A, B, C, D, E, F, G, H : Eight;
   end record;
   type More is record
      First : Many;
      Last  : Integer;
   end record;
begin
   null;
end Main;
