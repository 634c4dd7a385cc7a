--  O10: a list that was moved is put to use once more, so two lists share their cells.
--> spark check O10_two_lists_with_one_rest.adb
--> status 1
--> err O10_two_lists_with_one_rest.adb:37:10: O10 L: moved
--> err O10_two_lists_with_one_rest.adb:38:10: O10 L: moved
package Lists is
   type Cell;
   type List is access Cell;
   type Cell is record
      Value : Integer;
      Next  : List;
   end record;
   procedure Push (L : in out List; Value : Integer);
   procedure Drop (L : in out List);
end Lists;
with Ada.Unchecked_Deallocation;
package body Lists is
   procedure Free is new Ada.Unchecked_Deallocation (Cell, List);
   procedure Push (L : in out List; Value : Integer) is
   begin
      L := new Cell'(Value, L);
   end Push;
   procedure Drop (L : in out List) is
      First : List := L;
   begin
      L := First.Next;
      Free (First);
   end Drop;
end Lists;
with Ada.Text_IO;
with Lists; use Lists;
procedure Main is
   L, M : List;
begin
   Push (L, 1);
   M := L;
   Drop (L);
   Push (L, 2);
   Ada.Text_IO.Put_Line (Integer'Image (M.Value));
end Main;
