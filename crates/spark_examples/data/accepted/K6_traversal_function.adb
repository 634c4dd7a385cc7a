--  K6: a function may give a part of its first formal.
--> spark check K6_traversal_function.adb
--> status 0
--> out accepted
package Lists is
   type Cell;
   type List is access Cell;
   type Cell is record
      Value : Integer;
      Next  : List;
   end record;
   function Rest (L : access Cell) return access Cell;
end Lists;
package body Lists is
   function Rest (L : access Cell) return access Cell is
   begin
      return L.Next;
   end Rest;
end Lists;
