--  The same with an input that is a month.
--> spark run initial_value_within.adb
--> status 0
--> in 12
--> out  12
with Ada.Integer_Text_IO; use Ada.Integer_Text_IO;
with Ada.Text_IO; use Ada.Text_IO;
procedure Main is
   subtype Month is Integer range 1 .. 12;
   N : Integer;
begin
   Get (N);
   declare
      M : Month := N;
   begin
      Put_Line (Month'Image (M));
   end;
end Main;
