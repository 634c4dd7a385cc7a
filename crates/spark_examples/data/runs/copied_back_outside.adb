--  A formal of mode out is copied back at the end of the call, where its value doesn't fit the
--  actual. The position is that of the end of the callee.
--> spark run copied_back_outside.adb
--> status 3
--> out  2
--> err copied_back_outside.adb:15:4: raised Constraint_Error
package Counters is
   procedure Subtract (Left, Right : Integer; Result : out Integer);
end Counters;

package body Counters is
   procedure Subtract (Left, Right : Integer; Result : out Integer) is
   begin
      Result := Left - Right;
   end Subtract;
end Counters;

with Ada.Text_IO; use Ada.Text_IO;
with Counters; use Counters;
procedure Main is
   Left : Natural;
begin
   Subtract (5, 3, Left);
   Put_Line (Natural'Image (Left));
   Subtract (Left, 3, Left);
   Put_Line (Natural'Image (Left));
end Main;
