--  O1 and O4: what the first iteration of a loop frees, the second one may neither read nor move.
--> spark check O1_freed_in_a_loop.adb
--> status 1
--> err O1_freed_in_a_loop.adb:15:44: O1 X.all: moved
--> err O1_freed_in_a_loop.adb:16:14: O4 X: moved
with Ada.Text_IO;
with Ada.Unchecked_Deallocation;
procedure Main is
   type Int_Ptr is access Integer;
   procedure Free is new Ada.Unchecked_Deallocation (Integer, Int_Ptr);
   X   : Int_Ptr := new Integer'(7);
   Old : Int_Ptr;
begin
   for I in 1 .. 2 loop
      Ada.Text_IO.Put_Line (Integer'Image (X.all));
      Old := X;
      Free (Old);
   end loop;
end Main;
