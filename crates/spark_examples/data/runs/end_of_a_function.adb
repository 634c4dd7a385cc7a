--  A function that reaches its end without a return raises Program_Error.
--> spark run end_of_a_function.adb
--> status 3
--> out  1
--> err end_of_a_function.adb:18:4: raised Program_Error
package Signs is
   function Sign (N : Integer) return Integer;
end Signs;

package body Signs is
   function Sign (N : Integer) return Integer is
   begin
      if N > 0 then
         return 1;
      elsif N < 0 then
         return -1;
      end if;
   end Sign;
end Signs;

with Ada.Text_IO; use Ada.Text_IO;
with Signs; use Signs;
procedure Main is
begin
   Put_Line (Integer'Image (Sign (5)));
   Put_Line (Integer'Image (Sign (0)));
end Main;
