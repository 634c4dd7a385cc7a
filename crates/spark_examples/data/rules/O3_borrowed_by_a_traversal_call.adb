--  O3: what a traversal function is called for is borrowed as long as its result is kept.
--> spark check O3_borrowed_by_a_traversal_call.adb
--> status 1
--> err O3_borrowed_by_a_traversal_call.adb:31:7: O3 L.all.Next: borrowed
package Lists is
   type Cell;
   type List is access Cell;
   type Cell is record
      Value : Integer;
      Next  : List;
   end record;
   function Last (L : access Cell) return access Cell;
end Lists;
package body Lists is
   function Last (L : access Cell) return access Cell is
      B : access Cell := L;
   begin
      while B.Next /= null loop
         B := B.Next;
      end loop;
      return B;
   end Last;
end Lists;
with Lists; use Lists;
procedure Main is
   L : List := new Cell'(1, new Cell'(2, null));
begin
   declare
      B : access Cell := Last (L);
   begin
      L.Next := null;
      B.Value := 9;
   end;
end Main;
