--  V3: what isn't a part of the first formal is returned by a named access type, and so moved to the caller.
--> spark check V3_named_result.adb
--> status 0
--> out accepted
package Lists is
   type Cell;
   type List is access Cell;
   type Cell is record
      Value : Integer;
      Next  : List;
   end record;
   function Copy (L : List) return List;
end Lists;
package body Lists is
   function Copy (L : List) return List is
   begin
      if L = null then
         return null;
      else
         return new Cell'(L.Value, Copy (L.Next));
      end if;
   end Copy;
end Lists;
