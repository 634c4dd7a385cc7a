--  The index is tested before the call.
--> spark run index_within_in_an_actual.adb
--> status 0
--> in 2 5
--> out  40
--> out none
package Doubles is
   function Twice (N : Integer) return Integer;
end Doubles;

package body Doubles is
   function Twice (N : Integer) return Integer is
   begin
      return 2 * N;
   end Twice;
end Doubles;

with Ada.Integer_Text_IO; use Ada.Integer_Text_IO;
with Ada.Text_IO; use Ada.Text_IO;
with Doubles; use Doubles;
procedure Main is
   type Row is array (1 .. 4) of Integer;
   R : Row := (10, 20, 30, 40);
   I : Integer;
begin
   while not End_Of_File loop
      Get (I);
      if I >= Row'First and I <= Row'Last then
         Put_Line (Integer'Image (Twice (R (I))));
      else
         Put_Line ("none");
      end if;
   end loop;
end Main;
