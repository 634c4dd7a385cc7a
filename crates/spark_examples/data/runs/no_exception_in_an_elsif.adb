--  The condition before it leaves no zero for the quotient.
--> spark run no_exception_in_an_elsif.adb
--> status 0
--> in 10 5
--> in 10 0
--> out more than one each
--> out nobody is there
with Ada.Integer_Text_IO; use Ada.Integer_Text_IO;
with Ada.Text_IO; use Ada.Text_IO;
procedure Main is
   Apples   : Integer;
   Children : Integer;
begin
   while not End_Of_File loop
      Get (Apples);
      Get (Children);
      if Children = 0 then
         Put_Line ("nobody is there");
      elsif Apples / Children > 1 then
         Put_Line ("more than one each");
      end if;
   end loop;
end Main;
