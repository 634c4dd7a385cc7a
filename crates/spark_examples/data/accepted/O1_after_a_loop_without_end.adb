--  O1: no path leads past a loop without an exit, so that a read there breaks no rule.
--> spark check O1_after_a_loop_without_end.adb
--> status 0
--> out accepted
with Ada.Text_IO; use Ada.Text_IO;
with Ada.Integer_Text_IO; use Ada.Integer_Text_IO;
with Ada.Unchecked_Deallocation;
procedure Main is
   type Cell;
   type List is access Cell;
   type Cell is record
      Value : Integer;
      Next : List;
   end record;
   type Int_Ptr is access Integer;
   procedure Free is new Ada.Unchecked_Deallocation (Cell, List);
   procedure Drop is new Ada.Unchecked_Deallocation (Integer, Int_Ptr);
X, Y : Int_Ptr;
begin
Y := X; loop null; end loop; Put (Integer'Image (X.all));
end Main;
