--  A recursion that doesn't end: each call has a frame with a large object, and all frames together
--  have at most 4,194,304 words.
--> spark run too_many_words_of_frames.adb
--> status 3
--> out  64
--> err too_many_words_of_frames.adb:22:7: raised Storage_Error
package Searches is
   procedure Search (Depth : Positive);
end Searches;

with Ada.Text_IO; use Ada.Text_IO;
package body Searches is
   type Board is array (1 .. 65_000) of Natural;

   procedure Search (Depth : Positive) is
      B : Board;
   begin
      B (1) := Depth;
      if Depth > 63 then
         Put_Line (Positive'Image (Depth));
      end if;
      Search (B (1) + 1);
   end Search;
end Searches;

with Searches; use Searches;
procedure Main is
begin
   Search (1);
end Main;
