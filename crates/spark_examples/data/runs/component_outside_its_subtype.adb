--  A component of an aggregate has to be in the subtype that the record has for it.
--> spark run component_outside_its_subtype.adb
--> status 3
--> in 29 2
--> in 0 3
--> out  29
--> err component_outside_its_subtype.adb:24:7: raised Constraint_Error
with Ada.Integer_Text_IO; use Ada.Integer_Text_IO;
with Ada.Text_IO; use Ada.Text_IO;
procedure Main is
   subtype Day_Number is Integer range 1 .. 31;
   subtype Month_Number is Integer range 1 .. 12;
   type Date is record
      Day   : Day_Number;
      Month : Month_Number;
   end record;
   D     : Date;
   Day   : Integer;
   Month : Integer;
begin
   while not End_Of_File loop
      Get (Day);
      Get (Month);
      D := (Day, Month);
      Put_Line (Integer'Image (D.Day));
   end loop;
end Main;
