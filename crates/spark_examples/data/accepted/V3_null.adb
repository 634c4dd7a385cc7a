--  V3: a traversal function may return null.
--> spark check V3_null.adb
--> status 0
--> out accepted
package Lists is
   type Cell;
   type List is access Cell;
   type Cell is record
      Value : Integer;
      Next  : List;
   end record;
   function Second (L : List) return access constant Cell;
end Lists;
package body Lists is
   function Second (L : List) return access constant Cell is
   begin
      if L = null then
         return null;
      else
         return L.Next;
      end if;
   end Second;
end Lists;
