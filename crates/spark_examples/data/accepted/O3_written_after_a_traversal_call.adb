--  O3: after the block the list may be written again.
--> spark check O3_written_after_a_traversal_call.adb
--> status 0
--> out accepted
package Lists is
   type Cell;
   type List is access Cell;
   type Cell is record
      Value : Integer;
      Next  : List;
   end record;
   function Last (L : access Cell) return access Cell;
end Lists;
package body Lists is
   function Last (L : access Cell) return access Cell is
      B : access Cell := L;
   begin
      while B.Next /= null loop
         B := B.Next;
      end loop;
      return B;
   end Last;
end Lists;
with Lists; use Lists;
procedure Main is
   L : List := new Cell'(1, new Cell'(2, null));
begin
   declare
      B : access Cell := Last (L);
   begin
      B.Value := 9;
   end;
   L.Next := null;
end Main;
