--  An object without an initial value is null, and a dereference of it raises Constraint_Error.
--> spark run null_is_dereferenced.adb
--> status 3
--> out none yet
--> err null_is_dereferenced.adb:14:4: raised Constraint_Error
with Ada.Text_IO; use Ada.Text_IO;
procedure Main is
   type Int_Ptr is access Integer;
   P : Int_Ptr;
begin
   if P = null then
      Put_Line ("none yet");
   end if;
   Put_Line (Integer'Image (P.all));
end Main;
