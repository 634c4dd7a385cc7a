--  P1: there is no box.
--> spark check P1_box.adb
--> status 2
--> err P1_box.adb:6:35: P1 syntax
procedure Main is
   type A is array (Integer range <>) of Integer;
begin
   null;
end Main;
