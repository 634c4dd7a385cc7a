--  What is freed doesn't count, so the same cells one after the other are no trouble.
--> spark run freed_before_the_limit.adb
--> status 0
--> out  257
with Ada.Text_IO; use Ada.Text_IO;
with Ada.Unchecked_Deallocation;
procedure Main is
   type Filler is array (1 .. 65_536) of Integer;
   type Filler_Ptr is access Filler;
   procedure Free is new Ada.Unchecked_Deallocation (Filler, Filler_Ptr);
   Made  : Filler_Ptr;
   Count : Natural := 0;
begin
   for I in 1 .. 257 loop
      Made := new Filler;
      Free (Made);
      Count := I;
   end loop;
   Put_Line (Natural'Image (Count));
end Main;
