--  What a condition raises stands at the word before it.
--> spark run exception_in_an_elsif.adb
--> status 3
--> in 10 5
--> in 10 0
--> out more than one each
--> err exception_in_an_elsif.adb:19:7: raised Constraint_Error
with Ada.Integer_Text_IO; use Ada.Integer_Text_IO;
with Ada.Text_IO; use Ada.Text_IO;
procedure Main is
   Apples   : Integer;
   Children : Integer;
begin
   while not End_Of_File loop
      Get (Apples);
      Get (Children);
      if Apples < Children then
         Put_Line ("too few");
      elsif Apples / Children > 1 then
         Put_Line ("more than one each");
      end if;
   end loop;
end Main;
