--  O1: to read through null breaks no rule of ownership.
--> spark check O1_null_is_read.adb
--> status 0
--> out accepted
with Ada.Text_IO;
procedure Main is
   type Int_Ptr is access Integer;
   X : Int_Ptr;
begin
   if Ada.Text_IO.End_Of_File then
      X := null;
   else
      X := new Integer'(1);
   end if;
   Ada.Text_IO.Put_Line (Integer'Image (X.all));
end Main;
