package P is
   type Cell;
   type List is access Cell;
   type Cell is record
      Value : Integer;
      Next : List;
   end record;
   type Pair is record A, B : Integer; end record;
   type Counts is array (1 .. 3) of Integer;
   function One (N : Integer) return Integer;
   function Two (N : Integer) return Pair;
   function Made (N : Integer) return List;
   function Rest (L : access Cell) return access Cell;
end P;
package body P is
   function One (N : Integer) return Integer is
   begin
      return N + 1;
   end One;
   function Two (N : Integer) return Pair is
   begin
      return (One (N), N);
   end Two;
   function Made (N : Integer) return List is
   begin
      if N = 0 then
         return null;
      end if;
      return new Cell'(One (N), Made (N - 1));
   end Made;
   function Rest (L : access Cell) return access Cell is
   begin
      return L.Next;
   end Rest;
end P;
with P; use P;
with Ada.Text_IO; use Ada.Text_IO;
procedure Main is
   X : Pair := Two (One (3));
   C : Counts := (One (1), 5, One (X.B));
   L : List := Made (2);
begin
   C (One (0)) := One (C (One (1))) * 2;
   Put_Line (Integer'Image (One (C (1)) - One (One (2))) & Integer'Image (X.A));
   declare
      B : access Cell := Rest (L);
   begin
      B.Value := One (B.Value);
      Put_Line (Integer'Image (B.Value));
   end;
   L.Next := Made (One (0));
   for I in One (0) .. One (1) loop
      if One (I) = 2 or else One (I) / (I - 2) = One (1) then
         Put (Integer'Image (I));
      end if;
   end loop;
end Main;
