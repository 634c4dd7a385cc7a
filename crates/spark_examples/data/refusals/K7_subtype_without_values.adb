--  K7: a subtype without values is no type of an object. Ada allows it.
--> spark check K7_subtype_without_values.adb
--> status 2
--> err K7_subtype_without_values.adb:7:8: K7 not static
procedure Main is
   subtype None is Integer range 1 .. 0;
   N : None;
begin
   null;
end Main;
