--  O9: a formal has its value again at the end of the procedure.
--> spark check O9_formal_given_back.adb
--> status 0
--> out accepted
package Lists is
   type Cell;
   type List is access Cell;
   type Cell is record
      Value : Integer;
      Next  : List;
   end record;
   procedure Count (L : in out List; Sum : in out Integer);
end Lists;
package body Lists is
   procedure Count (L : in out List; Sum : in out Integer) is
      Rest : List;
   begin
      if L /= null then
         Rest := L.Next;
         Sum := Sum + L.Value;
         Count (Rest, Sum);
         L.Next := Rest;
      end if;
   end Count;
end Lists;
