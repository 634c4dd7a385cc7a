--  K7: each intermediate value is within Integer.
--> spark check K7_no_overflow.adb
--> status 0
--> out accepted
procedure Main is
   Limit : constant := 2_147_483_647 - 1 + 1;
begin
   null;
end Main;
