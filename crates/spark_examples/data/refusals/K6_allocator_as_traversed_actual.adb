--  K6: a traversal function is called for a name. Ada allows it.
--> spark check K6_allocator_as_traversed_actual.adb
--> status 2
--> err K6_allocator_as_traversed_actual.adb:22:29: K6 anonymous access out of place
package Lists is
   type Cell;
   type List is access Cell;
   type Cell is record
      Value : Integer;
      Next  : List;
   end record;
   function Rest (L : access Cell) return access Cell;
end Lists;
package body Lists is
   function Rest (L : access Cell) return access Cell is
   begin
      return L.Next;
   end Rest;
end Lists;
with Lists; use Lists;
procedure Main is
   B : access Cell := Rest (new Cell);
begin
   null;
end Main;
