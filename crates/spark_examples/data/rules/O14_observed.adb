--  O14: what is observed may not be freed.
--> spark check O14_observed.adb
--> status 1
--> err O14_observed.adb:15:13: O14 X: observed
with Ada.Text_IO;
with Ada.Unchecked_Deallocation;
procedure Main is
   type Int_Ptr is access Integer;
   procedure Free is new Ada.Unchecked_Deallocation (Integer, Int_Ptr);
   X : Int_Ptr := new Integer'(7);
begin
   declare
      C : access constant Integer := X;
   begin
      Free (X);
      Ada.Text_IO.Put_Line (Integer'Image (C.all));
   end;
end Main;
