--  M1: a name has at most 16 selectors, and each step along a list has two.
--> spark check M1_nine_steps.adb
--> status 2
--> err M1_nine_steps.adb:14:9: M1 name too deep
procedure Main is
   type Cell;
   type List is access Cell;
   type Cell is record
      Value : Integer;
      Next  : List;
   end record;
   L : List;
begin
   L := L.Next.Next.Next.Next.Next.Next.Next.Next.Next;
end Main;
