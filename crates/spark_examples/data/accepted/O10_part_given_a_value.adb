--  O10: a list whose rest was taken out may be passed, once the rest has a value again.
--> spark check O10_part_given_a_value.adb
--> status 0
--> out accepted
package Lists is
   type Cell;
   type List is access Cell;
   type Cell is record
      Value : Integer;
      Next  : List;
   end record;
   procedure Clear (L : in out List);
end Lists;
with Ada.Unchecked_Deallocation;
package body Lists is
   procedure Free is new Ada.Unchecked_Deallocation (Cell, List);

   procedure Clear (L : in out List) is
      First : List;
   begin
      while L /= null loop
         First := L;
         L := First.Next;
         Free (First);
      end loop;
   end Clear;
end Lists;
with Lists; use Lists;
procedure Main is
   L    : List := new Cell'(1, new Cell'(2, null));
   Rest : List;
begin
   Rest := L.Next;
   L.Next := null;
   Clear (L);
   Clear (Rest);
end Main;
