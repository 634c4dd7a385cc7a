--  O4: each iteration moves a value of its own.
--> spark check O4_new_value_in_each_iteration.adb
--> status 0
--> out accepted
with Ada.Text_IO;
procedure Main is
   type Int_Ptr is access Integer;
   X : Int_Ptr;
   Y : Int_Ptr;
begin
   for I in 1 .. 3 loop
      X := new Integer'(I);
      Y := X;
      Ada.Text_IO.Put_Line (Integer'Image (Y.all));
   end loop;
end Main;
