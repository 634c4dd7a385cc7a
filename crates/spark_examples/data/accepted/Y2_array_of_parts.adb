--  Y2: all elements of an array count as one access part.
--> spark check Y2_array_of_parts.adb
--> status 0
--> out accepted
procedure Main is
   type Item is access Integer;
   type Items is array (1 .. 65) of Item;
   type More is record
      Parts : Items;
   end record;
begin
   null;
end Main;
