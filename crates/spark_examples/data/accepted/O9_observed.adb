--  O9: what is observed is moved nowhere, so nothing is to be given back.
--> spark check O9_observed.adb
--> status 0
--> out accepted
package Lists is
   type Cell;
   type List is access Cell;
   type Cell is record
      Value : Integer;
      Next  : List;
   end record;
   procedure Count (L : in out List; Sum : in out Integer);
end Lists;
package body Lists is
   procedure Count (L : in out List; Sum : in out Integer) is
      C : access constant Cell := L;
   begin
      while C /= null loop
         Sum := Sum + C.Value;
         C := C.Next;
      end loop;
   end Count;
end Lists;
