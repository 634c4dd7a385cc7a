--  Y1: a type of 65,536 words isn't too large.
--> spark check Y1_largest_array.adb
--> status 0
--> out accepted
package Store is
   type Table is array (1 .. 65_536) of Integer;
end Store;
