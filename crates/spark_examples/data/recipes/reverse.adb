--  A list is reversed in its place: each step gives one cell from one list to the other.
--> spark check reverse.adb
--> status 0
--> out accepted
package Lists is
   type Cell;
   type List is access Cell;
   type Cell is record
      Value : Integer;
      Next  : List;
   end record;
   procedure Reverse_In_Place (L : in out List);
end Lists;
package body Lists is
   procedure Reverse_In_Place (L : in out List) is
      Reversed, Rest : List;
   begin
      while L /= null loop
         Rest := L.Next;
         L.Next := Reversed;
         Reversed := L;
         L := Rest;
      end loop;
      L := Reversed;
   end Reverse_In_Place;
end Lists;
with Ada.Text_IO;
with Lists; use Lists;
procedure Main is
   L : List := new Cell'(1, new Cell'(2, null));
begin
   Reverse_In_Place (L);
   Ada.Text_IO.Put_Line (Integer'Image (L.Value) & Integer'Image (L.Next.Value));
end Main;
