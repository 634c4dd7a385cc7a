--  O3: an object that is overwritten is lost, which breaks no rule.
--> spark check O3_overwritten.adb
--> status 0
--> out accepted
with Ada.Text_IO;
procedure Main is
   type Int_Ptr is access Integer;
   X : Int_Ptr := new Integer'(1);
begin
   X := new Integer'(2);
   Ada.Text_IO.Put_Line (Integer'Image (X.all));
end Main;
