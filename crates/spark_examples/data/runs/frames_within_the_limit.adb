--  The same with 64 calls, which is as many as there is room for.
--> spark run frames_within_the_limit.adb
--> status 0
--> out  64
package Searches is
   procedure Search (Depth : Positive);
end Searches;

with Ada.Text_IO; use Ada.Text_IO;
package body Searches is
   type Board is array (1 .. 65_000) of Natural;

   procedure Search (Depth : Positive) is
      B : Board;
   begin
      B (1) := Depth;
      if Depth < 64 then
         Search (B (1) + 1);
      else
         Put_Line (Positive'Image (Depth));
      end if;
   end Search;
end Searches;

with Searches; use Searches;
procedure Main is
begin
   Search (1);
end Main;
