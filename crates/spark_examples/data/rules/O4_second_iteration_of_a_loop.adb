--  O4: the second iteration of a loop moves again what the first one moved.
--> spark check O4_second_iteration_of_a_loop.adb
--> status 1
--> err O4_second_iteration_of_a_loop.adb:12:12: O4 X: moved
with Ada.Text_IO;
procedure Main is
   type Int_Ptr is access Integer;
   X : Int_Ptr := new Integer'(7);
   Y : Int_Ptr;
begin
   while not Ada.Text_IO.End_Of_File loop
      Y := X;
      Ada.Text_IO.New_Line;
   end loop;
end Main;
