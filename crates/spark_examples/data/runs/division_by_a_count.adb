--  The mean of no numbers is said to be zero.
--> spark run division_by_a_count.adb
--> status 0
--> out  2
--> out  0
package Means is
   procedure Add (Value : Integer);
   procedure Clear;
   function Mean return Integer;
end Means;

package body Means is
   Sum   : Integer := 0;
   Count : Natural := 0;

   procedure Add (Value : Integer) is
   begin
      Sum := Sum + Value;
      Count := Count + 1;
   end Add;

   procedure Clear is
   begin
      Sum := 0;
      Count := 0;
   end Clear;

   function Mean return Integer is
   begin
      if Count = 0 then
         return 0;
      end if;
      return Sum / Count;
   end Mean;
end Means;

with Ada.Text_IO; use Ada.Text_IO;
with Means; use Means;
procedure Main is
begin
   Add (1);
   Add (4);
   Put_Line (Integer'Image (Mean));
   Clear;
   Put_Line (Integer'Image (Mean));
end Main;
