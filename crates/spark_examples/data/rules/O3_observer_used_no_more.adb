--  O3: a loan lasts to the end of the observer's scope, though the observer isn't used any more.
--> spark check O3_observer_used_no_more.adb
--> status 1
--> err O3_observer_used_no_more.adb:12:4: O3 X.all: observed
with Ada.Text_IO; use Ada.Text_IO;
procedure Main is
   type Int_Ptr is access Integer;
   X : Int_Ptr := new Integer'(7);
   C : access constant Integer := X;
begin
   Put_Line (Integer'Image (C.all));
   X.all := 8;
   Put_Line (Integer'Image (X.all));
end Main;
