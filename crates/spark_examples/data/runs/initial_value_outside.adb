--  The initial value has to be in the subtype of its object. The position is that of the object.
--> spark run initial_value_outside.adb
--> status 3
--> in 13
--> err initial_value_outside.adb:14:7: raised Constraint_Error
with Ada.Integer_Text_IO; use Ada.Integer_Text_IO;
with Ada.Text_IO; use Ada.Text_IO;
procedure Main is
   subtype Month is Integer range 1 .. 12;
   N : Integer;
begin
   Get (N);
   declare
      M : Month := N;
   begin
      Put_Line (Month'Image (M));
   end;
end Main;
