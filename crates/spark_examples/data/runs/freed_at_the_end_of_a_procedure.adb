--  Each call frees the cell that it made.
--> spark run freed_at_the_end_of_a_procedure.adb
--> status 0
--> out  1
--> out  4
package Squares is
   procedure Print (N : Integer);
end Squares;

with Ada.Text_IO; use Ada.Text_IO;
with Ada.Unchecked_Deallocation;
package body Squares is
   type Int_Ptr is access Integer;
   procedure Free is new Ada.Unchecked_Deallocation (Integer, Int_Ptr);

   procedure Print (N : Integer) is
      Square : Int_Ptr := new Integer'(N * N);
   begin
      Put_Line (Integer'Image (Square.all));
      Free (Square);
   end Print;
end Squares;

with Squares;
procedure Main is
begin
   Squares.Print (1);
   Squares.Print (2);
end Main;
