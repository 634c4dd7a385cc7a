--  O9: a procedure may not end while a formal that it moved away has no value.
--> spark check O9_formal_moved.adb
--> status 1
--> err O9_formal_moved.adb:23:4: O9 L.all.Next: moved
package Lists is
   type Cell;
   type List is access Cell;
   type Cell is record
      Value : Integer;
      Next  : List;
   end record;
   procedure Count (L : in out List; Sum : in out Integer);
end Lists;
package body Lists is
   procedure Count (L : in out List; Sum : in out Integer) is
      Rest : List;
   begin
      if L /= null then
         Rest := L.Next;
         Sum := Sum + L.Value;
         Count (Rest, Sum);
      end if;
   end Count;
end Lists;
