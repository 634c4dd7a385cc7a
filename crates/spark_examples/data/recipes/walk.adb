--  A walk along a list: an observer reads, a borrower changes.
--> spark check walk.adb
--> status 0
--> out accepted
package Lists is
   type Cell;
   type List is access Cell;
   type Cell is record
      Value : Integer;
      Next  : List;
   end record;
   function Sum (L : List) return Integer;
   procedure Double (L : in out List);
end Lists;
package body Lists is
   function Sum (L : List) return Integer is
      Total : Integer := 0;
      This  : access constant Cell := L;
   begin
      while This /= null loop
         Total := Total + This.Value;
         This := This.Next;
      end loop;
      return Total;
   end Sum;

   procedure Double (L : in out List) is
      This : access Cell := L;
   begin
      while This /= null loop
         This.Value := 2 * This.Value;
         This := This.Next;
      end loop;
   end Double;
end Lists;
with Ada.Text_IO;
with Lists; use Lists;
procedure Main is
   L : List := new Cell'(1, new Cell'(2, new Cell'(3, null)));
begin
   Double (L);
   Ada.Text_IO.Put_Line (Integer'Image (Sum (L)));
end Main;
