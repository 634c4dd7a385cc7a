--  The merge of two sorted lists, with what `spark` reads alone.
--> spark check sorted_merge.adb
--> status 0
--> out accepted
with Ada.Unchecked_Deallocation;
with Ada.Text_IO; use Ada.Text_IO;
package Merging with SPARK_Mode is
   type Cell;
   type List is access Cell;
   type Cell is record
      Value : Integer;
      Next  : List;
   end record;

   procedure Free is new Ada.Unchecked_Deallocation (Cell, List);
   procedure Push (L : in out List; V : Integer);
   procedure Merge (A, B : in out List; Result : out List);
end Merging;
package body Merging with SPARK_Mode is

   procedure Push (L : in out List; V : Integer) is
   begin
      L := new Cell'(V, L);
   end Push;

   procedure Take (From, To : in out List) is
      Head : List := From;
   begin
      From := Head.Next;
      Head.Next := To;
      To := Head;
   end Take;

   --  Moves all cells of A and B, both sorted, into Result.
   procedure Merge (A, B : in out List; Result : out List) is
      R : List := null;
   begin
      while A /= null and then B /= null loop
         if A.Value <= B.Value then
            Take (A, R);
         else
            Take (B, R);
         end if;
      end loop;
      while A /= null loop
         Take (A, R);
      end loop;
      while B /= null loop
         Take (B, R);
      end loop;
      --  R is in reverse order
      Result := null;
      while R /= null loop
         Take (R, Result);
      end loop;
   end Merge;

end Merging;
with Ada.Text_IO; use Ada.Text_IO;
with Merging; use Merging;
procedure Merge_Lists with SPARK_Mode is
   X, Y, Z : List;
begin
   for I in reverse 1 .. 5 loop
      Push (X, 2 * I);
      Push (Y, 2 * I - 1);
   end loop;
   Merge (X, Y, Z);
   declare
      C : access constant Cell := Z;
   begin
      while C /= null loop
         Put (Integer'Image (C.Value));
         C := C.Next;
      end loop;
      New_Line;
   end;
   while Z /= null loop
      declare
         Old : List := Z;
      begin
         Z := Old.Next;
         Free (Old);
      end;
   end loop;
end Merge_Lists;
