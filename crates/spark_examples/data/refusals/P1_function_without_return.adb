--  P1: a function has a result.
--> spark check P1_function_without_return.adb
--> status 2
--> err P1_function_without_return.adb:5:12: P1 syntax
function F is
begin
   return 1;
end F;
