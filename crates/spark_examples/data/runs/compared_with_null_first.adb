--  The object is compared with null before it is dereferenced.
--> spark run compared_with_null_first.adb
--> status 0
--> out none yet
with Ada.Text_IO; use Ada.Text_IO;
procedure Main is
   type Int_Ptr is access Integer;
   P : Int_Ptr;
begin
   if P = null then
      Put_Line ("none yet");
   else
      Put_Line (Integer'Image (P.all));
   end if;
end Main;
