--  O8: the rest of a list is freed through a borrower, and the list still leads to it.
--> spark check O8_freed_rest.adb
--> status 1
--> err O8_freed_rest.adb:23:4: O8 B.all.Next: moved
with Ada.Text_IO;
with Ada.Unchecked_Deallocation;
procedure Main is
   type Cell;
   type List is access Cell;
   type Cell is record
      Value : Integer;
      Next  : List;
   end record;
   procedure Free is new Ada.Unchecked_Deallocation (Cell, List);
   L    : List := new Cell'(1, new Cell'(2, null));
   Rest : List;
begin
   declare
      B : access Cell := L;
   begin
      Rest := B.Next;
      Free (Rest);
   end;
   Ada.Text_IO.Put_Line (Integer'Image (L.Next.Value));
end Main;
