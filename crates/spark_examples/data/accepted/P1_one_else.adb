--  P1: an if statement has one else.
--> spark check P1_one_else.adb
--> status 0
--> out accepted
procedure Main is
   N : Integer := 1;
begin
   if N = 1 then
      N := 2;
   else
      N := 3;
   end if;
end Main;
