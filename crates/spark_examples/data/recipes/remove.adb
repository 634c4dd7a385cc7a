--  A cell in the middle of a list is removed: by recursion, and by a borrower.
--> spark check remove.adb
--> status 0
--> out accepted
package Lists is
   type Cell;
   type List is access Cell;
   type Cell is record
      Value : Integer;
      Next  : List;
   end record;
   procedure Remove (L : in out List; Value : Integer);
   procedure Remove_After_Head (L : in out List; Value : Integer);
end Lists;
with Ada.Unchecked_Deallocation;
package body Lists is
   procedure Free is new Ada.Unchecked_Deallocation (Cell, List);

   procedure Remove (L : in out List; Value : Integer) is
      Old : List;
   begin
      if L = null then
         return;
      elsif L.Value = Value then
         Old := L;
         L := Old.Next;
         Free (Old);
      else
         Remove (L.Next, Value);
      end if;
   end Remove;

   --  Removes the first cell with this value but the head of the list.
   procedure Remove_After_Head (L : in out List; Value : Integer) is
      Before : access Cell := L;
      Old    : List;
   begin
      while Before /= null loop
         if Before.Next /= null and then Before.Next.Value = Value then
            Old := Before.Next;
            Before.Next := Old.Next;
            Free (Old);
            exit;
         end if;
         Before := Before.Next;
      end loop;
   end Remove_After_Head;
end Lists;
with Ada.Text_IO;
with Lists; use Lists;
procedure Main is
   L : List := new Cell'(1, new Cell'(2, new Cell'(3, new Cell'(4, null))));
begin
   Remove (L, 2);
   Remove_After_Head (L, 3);
   Ada.Text_IO.Put_Line (Integer'Image (L.Value) & Integer'Image (L.Next.Value));
end Main;
