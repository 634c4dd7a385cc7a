--  V1: a function writes neither what its formals lead to nor package objects, and no output.
--> spark check V1_function_that_writes.adb
--> status 1
--> err V1_function_that_writes.adb:17:7: V1 B.all: constant view
--> err V1_function_that_writes.adb:18:7: V1 Boxes.Calls: constant view
--> err V1_function_that_writes.adb:19:7: V1 Ada.Text_IO: constant view
package Boxes is
   type Box is access Integer;
   Calls : Integer := 0;
   function Content (B : Box) return Integer;
end Boxes;
with Ada.Text_IO;
package body Boxes is
   function Content (B : Box) return Integer is
      N : Integer := B.all;
   begin
      B.all := 0;
      Calls := Calls + 1;
      Ada.Text_IO.Put_Line ("content");
      return N;
   end Content;
end Boxes;
