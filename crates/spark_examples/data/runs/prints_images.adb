--  The image of a number that isn't negative begins with a blank, and that of an enumeration is in
--  upper case. Put leaves the line open.
--> spark run prints_images.adb
--> status 0
--> out RED GREEN BLUE
--> out  0-1 10
--> out TRUE
--> out
with Ada.Text_IO; use Ada.Text_IO;
procedure Main is
   type Color is (Red, Green, Blue);
begin
   for C in Color loop
      Put (Color'Image (C));
      if C /= Blue then
         Put (" ");
      end if;
   end loop;
   New_Line;
   Put_Line (Integer'Image (0) & Integer'Image (-1) & Integer'Image (10));
   Put_Line (Boolean'Image (Color'First = Red));
   New_Line;
end Main;
