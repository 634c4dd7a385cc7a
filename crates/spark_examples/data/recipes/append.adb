--  A cell at the end of a list: a borrower goes to the last cell.
--> spark check append.adb
--> status 0
--> out accepted
package Lists is
   type Cell;
   type List is access Cell;
   type Cell is record
      Value : Integer;
      Next  : List;
   end record;
   procedure Append (L : in out List; Value : Integer);
end Lists;
package body Lists is
   procedure Append (L : in out List; Value : Integer) is
   begin
      if L = null then
         L := new Cell'(Value, null);
      else
         declare
            Last : access Cell := L;
         begin
            while Last.Next /= null loop
               Last := Last.Next;
            end loop;
            Last.Next := new Cell'(Value, null);
         end;
      end if;
   end Append;
end Lists;
with Ada.Text_IO;
with Lists; use Lists;
procedure Main is
   L : List;
begin
   Append (L, 1);
   Append (L, 2);
   Ada.Text_IO.Put_Line (Integer'Image (L.Value) & Integer'Image (L.Next.Value));
end Main;
