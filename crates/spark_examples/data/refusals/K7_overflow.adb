--  K7: each value of a static expression is within Integer. Ada looks at the last one alone.
--> spark check K7_overflow.adb
--> status 2
--> err K7_overflow.adb:6:24: K7 not static
procedure Main is
   Limit : constant := 2_147_483_647 + 1 - 1;
begin
   null;
end Main;
