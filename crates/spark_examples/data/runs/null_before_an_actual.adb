--  The place of an in out actual is found at the call, which stands for what that raises.
--> spark run null_before_an_actual.adb
--> status 3
--> out  2
--> err null_before_an_actual.adb:28:4: raised Constraint_Error
package Counters is
   type Count_Ptr is access Natural;
   procedure Increase (Count : in out Natural);
end Counters;

package body Counters is
   procedure Increase (Count : in out Natural) is
   begin
      Count := Count + 1;
   end Increase;
end Counters;

with Ada.Text_IO; use Ada.Text_IO;
with Ada.Unchecked_Deallocation;
with Counters; use Counters;
procedure Main is
   procedure Free is new Ada.Unchecked_Deallocation (Natural, Count_Ptr);
   P : Count_Ptr := new Natural'(1);
begin
   Increase (P.all);
   Put_Line (Natural'Image (P.all));
   Free (P);
   Increase (P.all);
end Main;
