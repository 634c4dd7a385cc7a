--  The formal takes what the actual has.
--> spark run actual_of_mode_in_out_within.adb
--> status 0
--> out  2
package Counters is
   procedure Raise_By (Count : in out Natural; Change : Natural);
end Counters;

package body Counters is
   procedure Raise_By (Count : in out Natural; Change : Natural) is
   begin
      Count := Count + Change;
   end Raise_By;
end Counters;

with Ada.Text_IO; use Ada.Text_IO;
with Counters; use Counters;
procedure Main is
   Count : Natural := 0;
begin
   Raise_By (Count, 2);
   Put_Line (Natural'Image (Count));
end Main;
