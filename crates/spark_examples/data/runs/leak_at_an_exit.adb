--  An exit leaves the block of an object that still owns its cell.
--> spark run leak_at_an_exit.adb
--> status 5
--> out  3
--> err leak_at_an_exit.adb:18:10: leak of cell 3
with Ada.Text_IO; use Ada.Text_IO;
with Ada.Unchecked_Deallocation;
procedure Main is
   type Int_Ptr is access Integer;
   procedure Free is new Ada.Unchecked_Deallocation (Integer, Int_Ptr);
   Count : Integer := 0;
begin
   loop
      Count := Count + 1;
      declare
         P : Int_Ptr := new Integer'(Count);
      begin
         exit when P.all = 3;
         Free (P);
      end;
   end loop;
   Put_Line (Integer'Image (Count));
end Main;
