--  Each call makes a cell for itself, and none of them frees it.
--> spark run leak_at_the_end_of_a_procedure.adb
--> status 5
--> out  1
--> out  4
--> err leak_at_the_end_of_a_procedure.adb:20:4: leak of cell 1
--> err leak_at_the_end_of_a_procedure.adb:20:4: leak of cell 2
package Squares is
   procedure Print (N : Integer);
end Squares;

with Ada.Text_IO; use Ada.Text_IO;
package body Squares is
   type Int_Ptr is access Integer;

   procedure Print (N : Integer) is
      Square : Int_Ptr := new Integer'(N * N);
   begin
      Put_Line (Integer'Image (Square.all));
   end Print;
end Squares;

with Squares;
procedure Main is
begin
   Squares.Print (1);
   Squares.Print (2);
end Main;
