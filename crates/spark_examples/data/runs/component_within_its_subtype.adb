--  The same with an input of dates.
--> spark run component_within_its_subtype.adb
--> status 0
--> in 29 2
--> in 1 3
--> out  29
--> out  1
with Ada.Integer_Text_IO; use Ada.Integer_Text_IO;
with Ada.Text_IO; use Ada.Text_IO;
procedure Main is
   subtype Day_Number is Integer range 1 .. 31;
   subtype Month_Number is Integer range 1 .. 12;
   type Date is record
      Day   : Day_Number;
      Month : Month_Number;
   end record;
   D     : Date;
   Day   : Integer;
   Month : Integer;
begin
   while not End_Of_File loop
      Get (Day);
      Get (Month);
      D := (Day, Month);
      Put_Line (Integer'Image (D.Day));
   end loop;
end Main;
