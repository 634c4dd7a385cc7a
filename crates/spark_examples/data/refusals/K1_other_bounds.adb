--  K1: an allocator has the designated type with its bounds. Ada allows it.
--> spark check K1_other_bounds.adb
--> status 2
--> err K1_other_bounds.adb:9:9: K1 wrong type
procedure Main is
   type Link is access Integer;
   X : Link;
begin
   X := new Natural'(1);
end Main;
