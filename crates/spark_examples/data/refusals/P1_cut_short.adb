--  P1: a source that ends too early is refused at the end of its file.
--> spark check P1_cut_short.adb
--> status 2
--> err P1_cut_short.adb:8:1: P1 syntax
procedure Main is
begin
   null;
