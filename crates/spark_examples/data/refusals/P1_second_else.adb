--  P1: an if statement has one else at most.
--> spark check P1_second_else.adb
--> status 2
--> err P1_second_else.adb:12:4: P1 syntax
procedure Main is
   N : Integer := 1;
begin
   if N = 1 then
      N := 2;
   else
      N := 3;
   else
      N := 4;
   end if;
end Main;
