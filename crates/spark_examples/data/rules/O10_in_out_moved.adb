--  O10: a name that was moved may not be an in out actual.
--> spark check O10_in_out_moved.adb
--> status 1
--> err O10_in_out_moved.adb:26:10: O10 X: moved
package Lists is
   type Cell;
   type List is access Cell;
   type Cell is record
      Value : Integer;
      Next  : List;
   end record;
   procedure Push (L : in out List; Value : Integer);
end Lists;
package body Lists is
   procedure Push (L : in out List; Value : Integer) is
   begin
      L := new Cell'(Value, L);
   end Push;
end Lists;
with Lists; use Lists;
procedure Main is
   X, Y : List;
begin
   Push (X, 1);
   Y := X;
   Push (X, 2);
   Push (Y, 3);
end Main;
