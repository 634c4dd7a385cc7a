--  An actual of type Integer takes each value of the formal.
--> spark run copied_back_within.adb
--> status 0
--> out  2
--> out -1
package Counters is
   procedure Subtract (Left, Right : Integer; Result : out Integer);
end Counters;

package body Counters is
   procedure Subtract (Left, Right : Integer; Result : out Integer) is
   begin
      Result := Left - Right;
   end Subtract;
end Counters;

with Ada.Text_IO; use Ada.Text_IO;
with Counters; use Counters;
procedure Main is
   Left : Integer;
begin
   Subtract (5, 3, Left);
   Put_Line (Integer'Image (Left));
   Subtract (Left, 3, Left);
   Put_Line (Integer'Image (Left));
end Main;
