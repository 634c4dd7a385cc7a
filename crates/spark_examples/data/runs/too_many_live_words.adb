--  256 cells of 65,536 words have the 16,777,216 words that cells may have at once. There is no
--  room for one more.
--> spark run too_many_live_words.adb
--> status 3
--> out  256
--> err too_many_live_words.adb:20:7: raised Storage_Error
with Ada.Text_IO; use Ada.Text_IO;
procedure Main is
   type Node;
   type Chain is access Node;
   type Filler is array (1 .. 65_535) of Integer;
   type Node is record
      Next : Chain;
      Fill : Filler;
   end record;
   First : Chain;
   Made  : Chain;
begin
   for I in 1 .. 257 loop
      Made := new Node;
      Made.Next := First;
      First := Made;
      if I = 256 then
         Put_Line (Integer'Image (I));
      end if;
   end loop;
end Main;
