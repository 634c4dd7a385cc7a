--  K6: a traversal function is called for a name.
--> spark check K6_traversal_call.adb
--> status 0
--> out accepted
package Lists is
   type Cell;
   type List is access Cell;
   type Cell is record
      Value : Integer;
      Next  : List;
   end record;
   function Rest (L : access Cell) return access Cell;
end Lists;
package body Lists is
   function Rest (L : access Cell) return access Cell is
   begin
      return L.Next;
   end Rest;
end Lists;
with Lists; use Lists;
procedure Main is
   L : List := new Cell;
   B : access Cell := Rest (L);
begin
   null;
end Main;
