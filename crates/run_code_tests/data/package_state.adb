package P is
   type Pair is record A, B : Integer; end record;
   type Pairs is array (1 .. 2) of Pair;
   Count : Integer := 3;
   Both : Pairs := (others => (Count, 4));
   Top : Pair := Both (2);
   procedure Bump (By : Integer; Last : in out Pair);
end P;
package body P is
   procedure Bump (By : Integer; Last : in out Pair) is
      Old : Pair := Last;
   begin
      Count := Count + By;
      Last.B := Count;
      Both (1) := Old;
   end Bump;
end P;
with P; use P;
with Ada.Text_IO; use Ada.Text_IO;
procedure Main is
   X : Pair;
begin
   Bump (2, X);
   Bump (X.B, P.Both (2));
   Put_Line (Integer'Image (Count) & Integer'Image (Both (1).A) & Integer'Image (Both (2).B) & Integer'Image (Top.A));
end Main;
