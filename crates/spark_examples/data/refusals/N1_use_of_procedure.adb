--  N1: a use clause names a package, and is refused at the first token of the name.
--> spark check N1_use_of_procedure.adb
--> status 2
--> err N1_use_of_procedure.adb:6:5: N1 unknown name
with Ada.Text_IO;
use Ada.Text_IO.Put_Line;
procedure Main is
begin
   null;
end Main;
