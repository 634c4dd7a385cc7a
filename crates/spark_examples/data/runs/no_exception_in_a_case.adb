--  The remainder is an index of the array, whatever the input is.
--> spark run no_exception_in_a_case.adb
--> status 0
--> in 2 6
--> out even
--> out odd
with Ada.Integer_Text_IO; use Ada.Integer_Text_IO;
with Ada.Text_IO; use Ada.Text_IO;
procedure Main is
   type Kind is (Odd, Even);
   type Kinds is array (0 .. 4) of Kind;
   Kind_Of : Kinds := (Even, Odd, Even, Odd, Even);
   N       : Integer;
begin
   while not End_Of_File loop
      Get (N);
      case Kind_Of (N mod 5) is
         when Odd => Put_Line ("odd");
         when Even => Put_Line ("even");
      end case;
   end loop;
end Main;
