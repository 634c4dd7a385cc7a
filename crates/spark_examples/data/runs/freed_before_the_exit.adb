--  The cell is freed on the way to the exit, too.
--> spark run freed_before_the_exit.adb
--> status 0
--> out  3
with Ada.Text_IO; use Ada.Text_IO;
with Ada.Unchecked_Deallocation;
procedure Main is
   type Int_Ptr is access Integer;
   procedure Free is new Ada.Unchecked_Deallocation (Integer, Int_Ptr);
   Count : Integer := 0;
begin
   loop
      Count := Count + 1;
      declare
         P : Int_Ptr := new Integer'(Count);
      begin
         if P.all = 3 then
            Free (P);
            exit;
         end if;
         Free (P);
      end;
   end loop;
   Put_Line (Integer'Image (Count));
end Main;
