--  Free does nothing to a name that is null, but what leads to the name may not be null.
--> spark run null_before_a_freed_name.adb
--> status 3
--> err null_before_a_freed_name.adb:18:4: raised Constraint_Error
with Ada.Unchecked_Deallocation;
procedure Main is
   type Cell;
   type List is access Cell;
   type Cell is record
      Value : Integer;
      Next  : List;
   end record;
   procedure Free is new Ada.Unchecked_Deallocation (Cell, List);
   L : List := new Cell'(1, null);
begin
   Free (L.Next);
   Free (L);
   Free (L.Next);
end Main;
