with Ada.Unchecked_Deallocation;
procedure Main is
   type Cell;
   type List is access Cell;
   type Cell is record
      Value : Integer;
      Next : List;
   end record;
   procedure Free is new Ada.Unchecked_Deallocation (Cell, List);
   X, Y : List;
begin
   X := new Cell'(1, new Cell'(2, null));
   Y := X;
   X := Y;
   Free (X);
   Free (Y);
end Main;
