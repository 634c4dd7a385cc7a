--  O3: a loan ends with the block that declares the observer.
--> spark check O3_observer_in_a_block.adb
--> status 0
--> out accepted
with Ada.Text_IO; use Ada.Text_IO;
procedure Main is
   type Int_Ptr is access Integer;
   X : Int_Ptr := new Integer'(7);
begin
   declare
      C : access constant Integer := X;
   begin
      Put_Line (Integer'Image (C.all));
   end;
   X.all := 8;
   Put_Line (Integer'Image (X.all));
end Main;
