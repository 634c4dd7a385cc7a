--  O10: a name that was moved may be an out actual, which gives it a value.
--> spark check O10_out_moved.adb
--> status 0
--> out accepted
package Lists is
   type Cell;
   type List is access Cell;
   type Cell is record
      Value : Integer;
      Next  : List;
   end record;
   procedure Start (L : out List; Value : Integer);
   procedure Push (L : in out List; Value : Integer);
end Lists;
package body Lists is
   procedure Start (L : out List; Value : Integer) is
   begin
      L := new Cell'(Value, null);
   end Start;
   procedure Push (L : in out List; Value : Integer) is
   begin
      L := new Cell'(Value, L);
   end Push;
end Lists;
with Lists; use Lists;
procedure Main is
   X, Y : List;
begin
   Push (X, 1);
   Y := X;
   Start (X, 2);
   Push (X, 3);
end Main;
