with Ada.Text_IO; use Ada.Text_IO;
with Ada.Unchecked_Deallocation;
procedure Main is
   type Cell;
   type List is access Cell;
   type Cell is record
      Value : Integer;
      Next : List;
   end record;
   procedure Free is new Ada.Unchecked_Deallocation (Cell, List);
   X, Y, Z : List;
   N : Integer := 0;
begin
   X := new Cell'(1, new Cell'(2, null));
   Y := X.Next;
   Z := X.Next;
   Put_Line (Integer'Image (Z.Value));
   Free (Y);
   N := X.Value;
   N := Z.Value;
end Main;
