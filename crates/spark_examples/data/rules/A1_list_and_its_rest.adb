--  A1: two actuals that overlap may not both be changed.
--> spark check A1_list_and_its_rest.adb
--> status 1
--> err A1_list_and_its_rest.adb:26:13: A1 L.all.Next: overlaps another actual
package Lists is
   type Cell;
   type List is access Cell;
   type Cell is record
      Value : Integer;
      Next  : List;
   end record;
   procedure Swap (A, B : in out List);
end Lists;
package body Lists is
   procedure Swap (A, B : in out List) is
      Old : List := A;
   begin
      A := B;
      B := Old;
   end Swap;
end Lists;
with Lists; use Lists;
procedure Main is
   L : List := new Cell'(1, new Cell'(2, null));
begin
   Swap (L, L.Next);
end Main;
