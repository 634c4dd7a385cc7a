--  As in traversal_call, and the list is freed at the end.
--> spark run traversal_call_and_free.adb
--> status 0
--> out  9
with Ada.Unchecked_Deallocation;
package Lists is
   type Cell;
   type List is access Cell;
   type Cell is record
      Value : Integer;
      Next  : List;
   end record;
   procedure Free is new Ada.Unchecked_Deallocation (Cell, List);
   function Last (L : access Cell) return access Cell;
end Lists;

package body Lists is
   function Last (L : access Cell) return access Cell is
      B : access Cell := L;
   begin
      while B.Next /= null loop
         B := B.Next;
      end loop;
      return B;
   end Last;
end Lists;

with Ada.Text_IO; use Ada.Text_IO;
with Lists; use Lists;
procedure Main is
   L : List := new Cell'(1, new Cell'(2, null));
begin
   declare
      B : access Cell := Last (L);
   begin
      B.Value := 9;
   end;
   Put_Line (Integer'Image (L.Next.Value));
   Free (L.Next);
   Free (L);
end Main;
