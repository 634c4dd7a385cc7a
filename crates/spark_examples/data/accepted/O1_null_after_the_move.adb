--  O1: X is given null after the move, so that it may be tested and read.
--> spark check O1_null_after_the_move.adb
--> status 0
--> out accepted
with Ada.Text_IO;
procedure Main is
   type Int_Ptr is access Integer;
   X : Int_Ptr := new Integer'(7);
   Y : Int_Ptr;
begin
   if Ada.Text_IO.End_Of_File then
      Y := X;
      X := null;
   end if;
   if X /= null and then X.all = 7 then
      Ada.Text_IO.Put_Line ("seven");
   end if;
end Main;
