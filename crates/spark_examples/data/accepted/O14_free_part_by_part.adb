--  O14: a cell whose rest was moved out may be freed.
--> spark check O14_free_part_by_part.adb
--> status 0
--> out accepted
with Ada.Unchecked_Deallocation;
procedure Main is
   type Cell;
   type List is access Cell;
   type Cell is record
      Value : Integer;
      Next  : List;
   end record;
   procedure Free is new Ada.Unchecked_Deallocation (Cell, List);
   L   : List := new Cell'(1, new Cell'(2, null));
   Old : List;
begin
   while L /= null loop
      Old := L;
      L := Old.Next;
      Free (Old);
   end loop;
end Main;
