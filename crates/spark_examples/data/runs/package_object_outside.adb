--  Package objects get their values before the main procedure begins. This one gets none that it
--  takes.
--> spark run package_object_outside.adb
--> status 3
--> err package_object_outside.adb:9:4: raised Constraint_Error
package Limits is
   Most     : Natural := 3;
   Reserved : Natural := 4;
   Rest     : Natural := Most - Reserved;
end Limits;

with Ada.Text_IO; use Ada.Text_IO;
with Limits;
procedure Main is
begin
   Put_Line (Natural'Image (Limits.Rest));
end Main;
