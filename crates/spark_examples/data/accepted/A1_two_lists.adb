--  A1: two actuals with two roots don't overlap.
--> spark check A1_two_lists.adb
--> status 0
--> out accepted
package Lists is
   type Cell;
   type List is access Cell;
   type Cell is record
      Value : Integer;
      Next  : List;
   end record;
   procedure Swap (A, B : in out List);
end Lists;
package body Lists is
   procedure Swap (A, B : in out List) is
      Old : List := A;
   begin
      A := B;
      B := Old;
   end Swap;
end Lists;
with Lists; use Lists;
procedure Main is
   L : List := new Cell'(1, new Cell'(2, null));
   M : List := new Cell'(3, null);
begin
   Swap (L, M);
   Swap (L.Next, M.Next);
end Main;
