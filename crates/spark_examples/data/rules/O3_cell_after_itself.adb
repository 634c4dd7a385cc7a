--  O3: a cell can't be put after itself, since it is moved before its component is written.
--> spark check O3_cell_after_itself.adb
--> status 1
--> err O3_cell_after_itself.adb:20:1: O3 X.all.Next: moved
with Ada.Text_IO; use Ada.Text_IO;
with Ada.Integer_Text_IO; use Ada.Integer_Text_IO;
with Ada.Unchecked_Deallocation;
procedure Main is
   type Cell;
   type List is access Cell;
   type Cell is record
      Value : Integer;
      Next : List;
   end record;
   type Int_Ptr is access Integer;
   procedure Free is new Ada.Unchecked_Deallocation (Cell, List);
   procedure Drop is new Ada.Unchecked_Deallocation (Integer, Int_Ptr);
X : List := new Cell'(1, null);
begin
X.Next := X;
end Main;
