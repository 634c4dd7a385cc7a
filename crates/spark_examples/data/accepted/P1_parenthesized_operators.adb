--  P1: two logical operators with parentheses.
--> spark check P1_parenthesized_operators.adb
--> status 0
--> out accepted
procedure Main is
   N : Integer := 1;
   B : Boolean;
begin
   B := (N = 1 and N = 2) or N = 3;
end Main;
