--  K6: a function that returns a number has no formal of an anonymous access type. Ada allows it.
--> spark check K6_anonymous_formal.adb
--> status 2
--> err K6_anonymous_formal.adb:12:21: K6 anonymous access out of place
package Lists is
   type Cell;
   type List is access Cell;
   type Cell is record
      Value : Integer;
      Next  : List;
   end record;
   function Length (L : access constant Cell) return Natural;
end Lists;
package body Lists is
   function Length (L : access constant Cell) return Natural is
      Found : Natural := 0;
      This  : access constant Cell := L;
   begin
      while This /= null loop
         Found := Found + 1;
         This := This.Next;
      end loop;
      return Found;
   end Length;
end Lists;
