--  A sorted list, with what `spark` reads alone.
--> spark check borrower_reborrow.adb
--> status 0
--> out accepted
package Sorted with SPARK_Mode is
   type Cell;
   type List is access Cell;
   type Cell is record
      Value : Integer;
      Next  : List;
   end record;

   --  Keeps the list sorted.
   procedure Insert_Sorted (L : in out List; Value : Integer);
   procedure Increment_All (L : in out List; By : Integer);
   procedure Truncate (L : in out List; N : Positive);
end Sorted;
package body Sorted with SPARK_Mode is
   procedure Insert_Sorted (L : in out List; Value : Integer) is
   begin
      if L = null or else L.Value >= Value then
         L := new Cell'(Value, L);
         return;
      end if;
      declare
         B : access Cell := L;
      begin
         while B.Next /= null and then B.Next.Value < Value loop
            B := B.Next;
         end loop;
         B.Next := new Cell'(Value => Value, Next => B.Next);
      end;
   end Insert_Sorted;

   procedure Increment_All (L : in out List; By : Integer) is
      B : access Cell := L;
   begin
      while B /= null loop
         B.Value := B.Value + By;
         B := B.Next;
      end loop;
   end Increment_All;

   --  Cuts the list after N cells.
   procedure Truncate (L : in out List; N : Positive) is
      B : access Cell := L;
   begin
      for I in 2 .. N loop
         exit when B = null;
         B := B.Next;
      end loop;
      if B /= null then
         B.Next := null;
      end if;
   end Truncate;

end Sorted;
with Ada.Text_IO; use Ada.Text_IO;
with Sorted; use Sorted;
procedure Main with SPARK_Mode is
   L : List;
begin
   Insert_Sorted (L, 3);
   Insert_Sorted (L, 1);
   Insert_Sorted (L, 2);
   Increment_All (L, 1);
   Truncate (L, 2);
   declare
      C : access constant Cell := L;
   begin
      while C /= null loop
         Put (Integer'Image (C.Value));
         C := C.Next;
      end loop;
   end;
   New_Line;
end Main;
