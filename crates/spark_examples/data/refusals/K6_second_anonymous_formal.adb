--  K6: the first formal alone is of an anonymous access type. Ada allows more.
--> spark check K6_second_anonymous_formal.adb
--> status 2
--> err K6_second_anonymous_formal.adb:12:36: K6 anonymous access out of place
package Lists is
   type Cell;
   type List is access Cell;
   type Cell is record
      Value : Integer;
      Next  : List;
   end record;
   function Rest (L : access Cell; M : access Cell) return access Cell;
end Lists;
package body Lists is
   function Rest (L : access Cell; M : access Cell) return access Cell is
   begin
      return L.Next;
   end Rest;
end Lists;
