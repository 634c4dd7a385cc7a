--  Each package object takes its value.
--> spark run package_object_within.adb
--> status 0
--> out  1
package Limits is
   Most     : Natural := 4;
   Reserved : Natural := 3;
   Rest     : Natural := Most - Reserved;
end Limits;

with Ada.Text_IO; use Ada.Text_IO;
with Limits;
procedure Main is
begin
   Put_Line (Natural'Image (Limits.Rest));
end Main;
