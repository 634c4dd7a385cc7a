--  The value of an in out actual has to fit its formal before the call.
--> spark run actual_of_mode_in_out_outside.adb
--> status 3
--> err actual_of_mode_in_out_outside.adb:20:4: raised Constraint_Error
package Counters is
   procedure Raise_By (Count : in out Positive; Change : Natural);
end Counters;

package body Counters is
   procedure Raise_By (Count : in out Positive; Change : Natural) is
   begin
      Count := Count + Change;
   end Raise_By;
end Counters;

with Counters; use Counters;
procedure Main is
   Count : Natural := 0;
begin
   Raise_By (Count, 2);
end Main;
