--  A1: a part is moved to an object of its own, and the rest gets a value before the call.
--> spark check A1_part_taken_out.adb
--> status 0
--> out accepted
package Lists is
   type Cell;
   type List is access Cell;
   type Cell is record
      Value : Integer;
      Next  : List;
   end record;
   procedure Swap (A, B : in out List);
end Lists;
package body Lists is
   procedure Swap (A, B : in out List) is
      Old : List := A;
   begin
      A := B;
      B := Old;
   end Swap;
end Lists;
with Lists; use Lists;
procedure Main is
   L : List := new Cell'(1, new Cell'(2, null));
   R : List;
begin
   R := L.Next;
   L.Next := null;
   Swap (L, R);
end Main;
