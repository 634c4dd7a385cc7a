--  Y3: an array with one element has elements.
--> spark check Y3_one_element.adb
--> status 0
--> out accepted
procedure Main is
   Count : constant := 1;
   type Row is array (1 .. Count) of Integer;
begin
   null;
end Main;
