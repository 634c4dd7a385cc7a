--  O6: an observer walks along a list; the cells that it has passed stay observed.
--> spark check O6_walk.adb
--> status 0
--> out accepted
procedure Main is
   type Cell;
   type List is access Cell;
   type Cell is record
      Value : Integer;
      Next  : List;
   end record;
   L   : List := new Cell'(1, new Cell'(2, null));
   Sum : Integer := 0;
begin
   declare
      C : access constant Cell := L;
   begin
      while C /= null loop
         Sum := Sum + C.Value;
         C := C.Next;
      end loop;
   end;
   L.Value := Sum;
end Main;
