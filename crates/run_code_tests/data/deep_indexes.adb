with Ada.Text_IO; use Ada.Text_IO;
with Ada.Unchecked_Deallocation;
procedure Main is
   type Line is array (0 .. 2) of Integer;
   type Grid is array (1 .. 2) of Line;
   type Box is record
      Size : Integer;
      Cells : Grid;
   end record;
   type Box_Ptr is access Box;
   procedure Free is new Ada.Unchecked_Deallocation (Box, Box_Ptr);
   type Row is array (1 .. 2) of Box_Ptr;
   R : Row;
   S : Grid;
   I : Integer := 1;
begin
   R (1) := new Box'(5, ((1, 2, 3), (others => 4)));
   R (2) := new Box;
   S := R (1).Cells;
   S (I) := S (I + 1);
   R (I + 1).Cells := S;
   R (R (1).Cells (1) (0) + 1).Cells (2) (R (1).Cells (I) (I) - 2) := R (1).Size + R (2).Cells (1) (2);
   Put_Line (Integer'Image (R (2).Cells (2) (0)) & Integer'Image (R (2).Cells (1) (1)));
   Free (R (2));
   R (1).Cells (R (1).Cells (2) (1) - 1) := S (1);
   Free (R (1));
end Main;
