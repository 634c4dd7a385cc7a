--  Y3: the low bound of an array isn't above its high bound. Ada allows it.
--> spark check Y3_no_elements.adb
--> status 2
--> err Y3_no_elements.adb:7:9: Y3 array without elements
procedure Main is
   Count : constant := 0;
   type Row is array (1 .. Count) of Integer;
begin
   null;
end Main;
