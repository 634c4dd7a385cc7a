--  A cell is made, what it holds is printed, and it is freed.
--> spark run prints_a_value.adb
--> status 0
--> out  7
with Ada.Text_IO; use Ada.Text_IO;
with Ada.Unchecked_Deallocation;
procedure Main is
   type Int_Ptr is access Integer;
   procedure Free is new Ada.Unchecked_Deallocation (Integer, Int_Ptr);
   P : Int_Ptr := new Integer'(7);
begin
   Put_Line (Integer'Image (P.all));
   Free (P);
end Main;
