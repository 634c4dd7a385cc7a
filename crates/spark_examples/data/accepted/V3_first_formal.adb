--  V3: a traversal function returns its first formal, a part of it, or null.
--> spark check V3_first_formal.adb
--> status 0
--> out accepted
package Lists is
   type Cell;
   type List is access Cell;
   type Cell is record
      Value : Integer;
      Next  : List;
   end record;
   function Rest (L : access constant Cell) return access constant Cell;
end Lists;
package body Lists is
   function Rest (L : access constant Cell) return access constant Cell is
   begin
      if L = null then
         return null;
      end if;
      return L.Next;
   end Rest;
end Lists;
