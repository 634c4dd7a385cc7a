--  M1: an observer of a part of the path begins a new name.
--> spark check M1_observer.adb
--> status 0
--> out accepted
procedure Main is
   type Cell;
   type List is access Cell;
   type Cell is record
      Value : Integer;
      Next  : List;
   end record;
   L : List;
   N : Integer;
begin
   declare
      C : access constant Cell := L.Next.Next.Next.Next.Next;
   begin
      N := C.Next.Next.Next.Next.Value;
   end;
end Main;
