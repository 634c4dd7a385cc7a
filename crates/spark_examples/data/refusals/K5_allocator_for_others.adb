--  K5: a value for all other elements is null where they own objects. Ada allows it.
--> spark check K5_allocator_for_others.adb
--> status 2
--> err K5_allocator_for_others.adb:8:26: K5 owning expression out of place
procedure Main is
   type Link is access Integer;
   type Row is array (1 .. 3) of Link;
   X : Row := (others => new Integer);
begin
   null;
end Main;
