--  K1: an access object is compared with null.
--> spark check K1_compared_with_null.adb
--> status 0
--> out accepted
procedure Main is
   type Link is access Integer;
   X, Y : Link;
begin
   if X = null and then Y /= null then
      null;
   end if;
end Main;
