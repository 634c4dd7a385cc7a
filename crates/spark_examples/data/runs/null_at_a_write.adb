--  A freed object is null, and a write to what it designates raises Constraint_Error.
--> spark run null_at_a_write.adb
--> status 3
--> out  1
--> err null_at_a_write.adb:15:4: raised Constraint_Error
with Ada.Text_IO; use Ada.Text_IO;
with Ada.Unchecked_Deallocation;
procedure Main is
   type Int_Ptr is access Integer;
   procedure Free is new Ada.Unchecked_Deallocation (Integer, Int_Ptr);
   P : Int_Ptr := new Integer'(1);
begin
   Put_Line (Integer'Image (P.all));
   Free (P);
   P.all := 2;
end Main;
