--  O14: nothing that has a borrowed part may be freed.
--> spark check O14_borrowed_part.adb
--> status 1
--> err O14_borrowed_part.adb:19:13: O14 L: borrowed
with Ada.Unchecked_Deallocation;
procedure Main is
   type Cell;
   type List is access Cell;
   type Cell is record
      Value : Integer;
      Next  : List;
   end record;
   procedure Free is new Ada.Unchecked_Deallocation (Cell, List);
   L : List := new Cell'(1, new Cell'(2, null));
begin
   declare
      B : access Cell := L.Next;
   begin
      Free (L);
      B.Value := 3;
   end;
end Main;
