--  The loop ends before the value leaves the designated subtype.
--> spark run allocated_value_within.adb
--> status 0
--> out  4
--> out  2
--> out  1
with Ada.Text_IO; use Ada.Text_IO;
with Ada.Unchecked_Deallocation;
procedure Main is
   type Size_Ptr is access Positive;
   procedure Free is new Ada.Unchecked_Deallocation (Positive, Size_Ptr);
   Size : Integer := 4;
   P    : Size_Ptr;
begin
   while Size > 0 loop
      P := new Positive'(Size);
      Put_Line (Positive'Image (P.all));
      Free (P);
      Size := Size / 2;
   end loop;
end Main;
