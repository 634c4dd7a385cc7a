--  The least value is tested before it gets another sign.
--> spark run sign_tested_first.adb
--> status 0
--> in -2147483647
--> in -2147483648
--> out  2147483647
--> out none
with Ada.Integer_Text_IO; use Ada.Integer_Text_IO;
with Ada.Text_IO; use Ada.Text_IO;
procedure Main is
   N : Integer;
begin
   while not End_Of_File loop
      Get (N);
      if N = Integer'First then
         Put_Line ("none");
      else
         Put_Line (Integer'Image (-N));
      end if;
   end loop;
end Main;
