--  O1: what one branch moves and frees may not be read after it.
--> spark check O1_freed_on_a_branch.adb
--> status 1
--> err O1_freed_on_a_branch.adb:17:41: O1 X.all: moved
with Ada.Text_IO;
with Ada.Unchecked_Deallocation;
procedure Main is
   type Int_Ptr is access Integer;
   procedure Free is new Ada.Unchecked_Deallocation (Integer, Int_Ptr);
   X   : Int_Ptr := new Integer'(7);
   Old : Int_Ptr;
begin
   if X.all > 5 then
      Old := X;
      Free (Old);
   end if;
   Ada.Text_IO.Put_Line (Integer'Image (X.all));
end Main;
