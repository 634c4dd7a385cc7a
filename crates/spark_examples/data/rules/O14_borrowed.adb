--  O14: what is borrowed may not be freed, since the borrower would change what comes into its place.
--> spark check O14_borrowed.adb
--> status 1
--> err O14_borrowed.adb:21:13: O14 L: borrowed
with Ada.Text_IO;
with Ada.Unchecked_Deallocation;
procedure Main is
   type Cell;
   type List is access Cell;
   type Cell is record
      Value : Integer;
      Next  : List;
   end record;
   procedure Free is new Ada.Unchecked_Deallocation (Cell, List);
   L : List := new Cell'(1, null);
   M : List;
begin
   declare
      B : access Cell := L;
   begin
      Free (L);
      M := new Cell'(2, null);
      B.Value := 3;
   end;
   Ada.Text_IO.Put_Line (Integer'Image (M.Value));
end Main;
