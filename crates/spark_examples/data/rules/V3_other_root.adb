--  V3: a traversal function returns a part of its first formal, and of nothing else.
--> spark check V3_other_root.adb
--> status 1
--> err V3_other_root.adb:19:17: V3 Lists.Empty: not rooted in the traversed parameter
package Lists is
   type Cell;
   type List is access Cell;
   type Cell is record
      Value : Integer;
      Next  : List;
   end record;
   Empty : List;
   function Rest (L : access constant Cell) return access constant Cell;
end Lists;
package body Lists is
   function Rest (L : access constant Cell) return access constant Cell is
   begin
      if L = null then
         return Empty;
      end if;
      return L.Next;
   end Rest;
end Lists;
