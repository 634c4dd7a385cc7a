--  A1: a scalar that is passed in is copied first, so it may overlap.
--> spark check A1_scalar_by_value.adb
--> status 0
--> out accepted
package Lists is
   type Cell;
   type List is access Cell;
   type Cell is record
      Value : Integer;
      Next  : List;
   end record;
   procedure Push (L : in out List; Value : Integer);
end Lists;
package body Lists is
   procedure Push (L : in out List; Value : Integer) is
   begin
      L := new Cell'(Value, L);
   end Push;
end Lists;
with Lists; use Lists;
procedure Main is
   L : List := new Cell'(1, null);
begin
   Push (L, L.Value);
end Main;
