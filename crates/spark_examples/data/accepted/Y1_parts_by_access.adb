--  Y1: what is designated doesn't count, so a long table is held in parts.
--> spark check Y1_parts_by_access.adb
--> status 0
--> out accepted
package Store is
   type Part is array (1 .. 32_768) of Integer;
   type Part_Ptr is access Part;
   type Table is record
      Low, High : Part_Ptr;
   end record;
end Store;
