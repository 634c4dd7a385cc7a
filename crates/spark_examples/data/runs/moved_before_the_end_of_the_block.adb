--  The cell gets another owner before the scope of the first one ends, and is freed through it.
--> spark run moved_before_the_end_of_the_block.adb
--> status 0
--> out  4
with Ada.Text_IO; use Ada.Text_IO;
with Ada.Unchecked_Deallocation;
procedure Main is
   type Int_Ptr is access Integer;
   procedure Free is new Ada.Unchecked_Deallocation (Integer, Int_Ptr);
   Last : Int_Ptr;
begin
   for I in 1 .. 3 loop
      declare
         P : Int_Ptr := new Integer'(I);
      begin
         P.all := P.all + 1;
         Free (Last);
         Last := P;
      end;
   end loop;
   Put_Line (Integer'Image (Last.all));
   Free (Last);
end Main;
