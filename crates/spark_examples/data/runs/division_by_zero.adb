--  The mean of no numbers divides by zero.
--> spark run division_by_zero.adb
--> status 3
--> out  2
--> err division_by_zero.adb:30:7: raised Constraint_Error
package Means is
   procedure Add (Value : Integer);
   procedure Clear;
   function Mean return Integer;
end Means;

package body Means is
   Sum   : Integer := 0;
   Count : Natural := 0;

   procedure Add (Value : Integer) is
   begin
      Sum := Sum + Value;
      Count := Count + 1;
   end Add;

   procedure Clear is
   begin
      Sum := 0;
      Count := 0;
   end Clear;

   function Mean return Integer is
   begin
      return Sum / Count;
   end Mean;
end Means;

with Ada.Text_IO; use Ada.Text_IO;
with Means; use Means;
procedure Main is
begin
   Add (1);
   Add (4);
   Put_Line (Integer'Image (Mean));
   Clear;
   Put_Line (Integer'Image (Mean));
end Main;
