--  The element of an actual is found at the call. That the callee changes the index, too, moves
--  nothing.
--> spark run copied_back_to_the_element.adb
--> status 0
--> out  9
--> out  2
package Takers is
   procedure Take (Value : out Integer; At_Index : in out Integer);
end Takers;

package body Takers is
   procedure Take (Value : out Integer; At_Index : in out Integer) is
   begin
      At_Index := At_Index + 1;
      Value := 9;
   end Take;
end Takers;

with Ada.Text_IO; use Ada.Text_IO;
with Takers; use Takers;
procedure Main is
   type Row is array (1 .. 3) of Integer;
   R : Row     := (0, 0, 0);
   I : Integer := 1;
begin
   Take (R (I), I);
   Put_Line (Integer'Image (R (1)));
   Put_Line (Integer'Image (I));
end Main;
