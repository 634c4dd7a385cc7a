--  The value of the formal is copied back to the cell of the actual.
--> spark run copied_back_to_a_cell.adb
--> status 0
--> out  3
package Counters is
   type Count_Ptr is access Natural;
   procedure Increase (Count : in out Natural);
end Counters;

package body Counters is
   procedure Increase (Count : in out Natural) is
   begin
      Count := Count + 1;
   end Increase;
end Counters;

with Ada.Text_IO; use Ada.Text_IO;
with Ada.Unchecked_Deallocation;
with Counters; use Counters;
procedure Main is
   procedure Free is new Ada.Unchecked_Deallocation (Natural, Count_Ptr);
   P : Count_Ptr := new Natural'(1);
begin
   Increase (P.all);
   Increase (P.all);
   Put_Line (Natural'Image (P.all));
   Free (P);
end Main;
