--  The rest is taken out and freed, cell after cell, before its component gets another value.
--> spark run rest_is_freed_before_the_cut.adb
--> status 0
with Ada.Unchecked_Deallocation;
procedure Main is
   type Cell;
   type List is access Cell;
   type Cell is record
      Value : Integer;
      Next  : List;
   end record;
   procedure Free is new Ada.Unchecked_Deallocation (Cell, List);
   L    : List;
   Made : List;
   Rest : List;
begin
   for I in 1 .. 3 loop
      Made := new Cell'(I, null);
      Made.Next := L;
      L := Made;
   end loop;
   Rest := L.Next;
   L.Next := null;
   while Rest /= null loop
      Made := Rest;
      Rest := Made.Next;
      Free (Made);
   end loop;
   Free (L);
end Main;
