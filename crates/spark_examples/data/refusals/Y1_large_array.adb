--  Y1: a type has at most 65,536 words.
--> spark check Y1_large_array.adb
--> status 2
--> err Y1_large_array.adb:6:9: Y1 type too large
package Store is
   type Table is array (1 .. 65_537) of Integer;
end Store;
