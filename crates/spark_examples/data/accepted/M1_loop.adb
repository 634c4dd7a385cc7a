--  M1: a loop goes on step by step where a name would be too deep.
--> spark check M1_loop.adb
--> status 0
--> out accepted
procedure Main is
   type Cell;
   type List is access Cell;
   type Cell is record
      Value : Integer;
      Next  : List;
   end record;
   L : List;
begin
   for I in 1 .. 9 loop
      L := L.Next;
   end loop;
end Main;
