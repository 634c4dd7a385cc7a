--  K5: null stands for all elements.
--> spark check K5_null_for_others.adb
--> status 0
--> out accepted
procedure Main is
   type Link is access Integer;
   type Row is array (1 .. 3) of Link;
   X : Row := (others => null);
begin
   null;
end Main;
