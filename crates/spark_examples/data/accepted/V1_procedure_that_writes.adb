--  V1: a procedure may write them.
--> spark check V1_procedure_that_writes.adb
--> status 0
--> out accepted
package Boxes is
   type Box is access Integer;
   Calls : Integer := 0;
   procedure Take (B : Box; N : out Integer);
end Boxes;
with Ada.Text_IO;
package body Boxes is
   procedure Take (B : Box; N : out Integer) is
   begin
      N := B.all;
      B.all := 0;
      Calls := Calls + 1;
      Ada.Text_IO.Put_Line ("taken");
   end Take;
end Boxes;
