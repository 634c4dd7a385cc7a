--  What the expression of a case raises stands at the word case.
--> spark run exception_in_a_case.adb
--> status 3
--> in 2 6
--> out even
--> err exception_in_a_case.adb:17:7: raised Constraint_Error
with Ada.Integer_Text_IO; use Ada.Integer_Text_IO;
with Ada.Text_IO; use Ada.Text_IO;
procedure Main is
   type Kind is (Odd, Even);
   type Kinds is array (1 .. 4) of Kind;
   Kind_Of : Kinds := (Odd, Even, Odd, Even);
   N       : Integer;
begin
   while not End_Of_File loop
      Get (N);
      case Kind_Of (N) is
         when Odd => Put_Line ("odd");
         when Even => Put_Line ("even");
      end case;
   end loop;
end Main;
