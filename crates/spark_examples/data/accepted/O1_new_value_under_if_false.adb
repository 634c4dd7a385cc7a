--  O1: a name that gets a value again on the same branch isn't moved after it.
--> spark check O1_new_value_under_if_false.adb
--> status 0
--> out accepted
with Ada.Text_IO;
procedure Main is
   type Int_Ptr is access Integer;
   Kept : Int_Ptr;
   X    : Int_Ptr := new Integer'(7);
begin
   if False then
      Kept := X;
      X := new Integer'(Kept.all);
   end if;
   Ada.Text_IO.Put_Line (Integer'Image (X.all));
end Main;
