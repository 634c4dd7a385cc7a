--  O10: a procedure may write through an in actual of an access type, so what is observed may not be one.
--> spark check O10_in_observed.adb
--> status 1
--> err O10_in_observed.adb:21:17: O10 X: observed
package Boxes is
   type Box is access Integer;
   procedure Clear (B : Box);
end Boxes;
package body Boxes is
   procedure Clear (B : Box) is
   begin
      B.all := 0;
   end Clear;
end Boxes;
with Ada.Text_IO;
with Boxes;
procedure Main is
   X : Boxes.Box := new Integer'(7);
   C : access constant Integer := X;
begin
   Boxes.Clear (X);
   Ada.Text_IO.Put_Line (Integer'Image (C.all));
end Main;
