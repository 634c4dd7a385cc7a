--  O4: a list may be assigned to itself, which moves it out and back in.
--> spark check O4_list_to_itself.adb
--> status 0
--> out accepted
with Ada.Text_IO; use Ada.Text_IO;
with Ada.Integer_Text_IO; use Ada.Integer_Text_IO;
with Ada.Unchecked_Deallocation;
procedure Main is
   type Cell;
   type List is access Cell;
   type Cell is record
      Value : Integer;
      Next : List;
   end record;
   type Int_Ptr is access Integer;
   procedure Free is new Ada.Unchecked_Deallocation (Cell, List);
   procedure Drop is new Ada.Unchecked_Deallocation (Integer, Int_Ptr);
X : List := new Cell'(1, null);
begin
X := X;
end Main;
