package P is
   type Cell;
   type List is access Cell;
   type Cell is record
      Value : Integer;
      Next : List;
   end record;
   subtype Small is Integer range 0 .. 9;
   procedure Grow (L : in out List; Added : out Small);
   procedure Make (N : Integer; L, M : out List);
   procedure Swap (A, B : in out List);
end P;
package body P is
   procedure Grow (L : in out List; Added : out Small) is
   begin
      Added := 7;
      if L = null then
         L := new Cell'(Added, null);
      else
         Grow (L.Next, Added);
         L.Value := L.Value + Added;
      end if;
   end Grow;
   procedure Make (N : Integer; L, M : out List) is
   begin
      L := new Cell'(N, new Cell'(N + 1, null));
   end Make;
   procedure Swap (A, B : in out List) is
      T : List := A;
   begin
      A := B;
      B := T;
   end Swap;
end P;
with P; use P;
with Ada.Text_IO; use Ada.Text_IO;
procedure Main is
   type Counts is array (1 .. 2) of Integer;
   X, Y : List;
   C : Counts := (1, 2);
begin
   Grow (X, C (2));
   Grow (X, C (C (1)));
   Make (C (1), Y, X.Next);
   Swap (X.Next, Y.Next);
   Put_Line (Integer'Image (X.Value) & Integer'Image (X.Next.Value) & Integer'Image (C (1) + C (2)));
   C (1) := 3;
   Make (2, X, Y);
   Grow (X.Next, C (C (1)));
end Main;
