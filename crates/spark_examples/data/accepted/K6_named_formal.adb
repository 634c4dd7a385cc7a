--  K6: a formal of the named access type is only looked at in a function.
--> spark check K6_named_formal.adb
--> status 0
--> out accepted
package Lists is
   type Cell;
   type List is access Cell;
   type Cell is record
      Value : Integer;
      Next  : List;
   end record;
   function Length (L : List) return Natural;
end Lists;
package body Lists is
   function Length (L : List) return Natural is
      Found : Natural := 0;
      This  : access constant Cell := L;
   begin
      while This /= null loop
         Found := Found + 1;
         This := This.Next;
      end loop;
      return Found;
   end Length;
end Lists;
