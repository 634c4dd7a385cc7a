--  The object gets a new cell before it is written to.
--> spark run new_cell_at_a_write.adb
--> status 0
--> out  1
--> out  2
with Ada.Text_IO; use Ada.Text_IO;
with Ada.Unchecked_Deallocation;
procedure Main is
   type Int_Ptr is access Integer;
   procedure Free is new Ada.Unchecked_Deallocation (Integer, Int_Ptr);
   P : Int_Ptr := new Integer'(1);
begin
   Put_Line (Integer'Image (P.all));
   Free (P);
   P := new Integer'(2);
   Put_Line (Integer'Image (P.all));
   Free (P);
end Main;
