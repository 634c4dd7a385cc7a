--  The value of an allocator has to be in the designated subtype. No cell is made for it.
--> spark run allocated_value_outside.adb
--> status 3
--> out  4
--> out  2
--> out  1
--> err allocated_value_outside.adb:17:7: raised Constraint_Error
with Ada.Text_IO; use Ada.Text_IO;
with Ada.Unchecked_Deallocation;
procedure Main is
   type Size_Ptr is access Positive;
   procedure Free is new Ada.Unchecked_Deallocation (Positive, Size_Ptr);
   Size : Integer := 4;
   P    : Size_Ptr;
begin
   loop
      P := new Positive'(Size);
      Put_Line (Positive'Image (P.all));
      Free (P);
      Size := Size / 2;
   end loop;
end Main;
