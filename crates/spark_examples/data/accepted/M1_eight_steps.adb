--  M1: a name with 16 selectors isn't too deep.
--> spark check M1_eight_steps.adb
--> status 0
--> out accepted
procedure Main is
   type Cell;
   type List is access Cell;
   type Cell is record
      Value : Integer;
      Next  : List;
   end record;
   L : List;
begin
   L := L.Next.Next.Next.Next.Next.Next.Next.Next;
end Main;
