--  O10: a function writes nothing, so what is observed may be its actual.
--> spark check O10_in_of_a_function.adb
--> status 0
--> out accepted
package Boxes is
   type Box is access Integer;
   function Content (B : Box) return Integer;
end Boxes;
package body Boxes is
   function Content (B : Box) return Integer is
   begin
      return B.all;
   end Content;
end Boxes;
with Ada.Text_IO;
with Boxes;
procedure Main is
   X : Boxes.Box := new Integer'(7);
   C : access constant Integer := X;
begin
   Ada.Text_IO.Put_Line (Integer'Image (Boxes.Content (X) + C.all));
end Main;
