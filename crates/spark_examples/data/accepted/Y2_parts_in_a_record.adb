--  Y2: parts that are held in a record of their own, which is designated, count as one.
--> spark check Y2_parts_in_a_record.adb
--> status 0
--> out accepted
procedure Main is
   type Item is access Integer;
   type Eight is record
      A, B, C, D, E, F, G, H : Item;
   end record;
   type Many is record
      A, B, C, D, E, F, G, H : Eight;
   end record;
   type Many_Ptr is access Many;
   type More is record
      First : Many_Ptr;
      Last  : Item;
   end record;
begin
   null;
end Main;
