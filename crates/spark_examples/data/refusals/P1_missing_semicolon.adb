--  P1: a semicolon closes each declaration.
--> spark check P1_missing_semicolon.adb
--> status 2
--> err P1_missing_semicolon.adb:7:1: P1 syntax
procedure Main is
   N : Integer
begin
   null;
end Main;
