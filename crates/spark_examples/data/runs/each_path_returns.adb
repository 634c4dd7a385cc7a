--  Each path through the function ends with a return.
--> spark run each_path_returns.adb
--> status 0
--> out  1
--> out  0
package Signs is
   function Sign (N : Integer) return Integer;
end Signs;

package body Signs is
   function Sign (N : Integer) return Integer is
   begin
      if N > 0 then
         return 1;
      elsif N < 0 then
         return -1;
      end if;
      return 0;
   end Sign;
end Signs;

with Ada.Text_IO; use Ada.Text_IO;
with Signs; use Signs;
procedure Main is
begin
   Put_Line (Integer'Image (Sign (5)));
   Put_Line (Integer'Image (Sign (0)));
end Main;
