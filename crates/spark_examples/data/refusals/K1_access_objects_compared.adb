--  K1: access objects are compared with null alone. Ada allows it.
--> spark check K1_access_objects_compared.adb
--> status 2
--> err K1_access_objects_compared.adb:9:7: K1 wrong type
procedure Main is
   type Link is access Integer;
   X, Y : Link;
begin
   if X = Y then
      null;
   end if;
end Main;
