--  O10: a name that was moved may not be the actual of a function.
--> spark check O10_in_of_a_function_moved.adb
--> status 1
--> err O10_in_of_a_function_moved.adb:21:56: O10 X: moved
package Boxes is
   type Box is access Integer;
   function Content (B : Box) return Integer;
end Boxes;
package body Boxes is
   function Content (B : Box) return Integer is
   begin
      return B.all;
   end Content;
end Boxes;
with Ada.Text_IO;
with Boxes;
procedure Main is
   X : Boxes.Box := new Integer'(7);
   Y : Boxes.Box := X;
begin
   Ada.Text_IO.Put_Line (Integer'Image (Boxes.Content (X)));
end Main;
