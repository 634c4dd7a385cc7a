package P is
   type Pair is record A, B : Integer; end record;
   subtype Digit is Integer range 0 .. 9;
   procedure Swap (A, B : in out Integer);
   procedure Split (N : Integer; High, Low : out Digit);
   function Sum (X : Pair) return Integer;
   function Power (N, K : Integer) return Integer;
end P;
package body P is
   procedure Swap (A, B : in out Integer) is
      T : Integer := A;
   begin
      A := B;
      B := T;
   end Swap;
   procedure Split (N : Integer; High, Low : out Digit) is
   begin
      High := N / 10;
      Low := N mod 10;
   end Split;
   function Sum (X : Pair) return Integer is
   begin
      return X.A + X.B;
   end Sum;
   function Power (N, K : Integer) return Integer is
   begin
      if K = 0 then
         return 1;
      end if;
      return N * Power (N, K - 1);
   end Power;
end P;
with P; use P;
with Ada.Text_IO; use Ada.Text_IO;
procedure Main is
   X : Pair := (1, 2);
   Y : Pair;
   H, L : Integer := 0;
begin
   Swap (X.A, X.B);
   Y := X;
   X.A := 7;
   Split (42, H, L);
   Put_Line (Integer'Image (Y.A) & Integer'Image (Y.B) & Integer'Image (Sum (X)));
   Put_Line (Integer'Image (H - L) & "," & Integer'Image (Power (2, Sum (Y))));
   Split (123, H, L);
end Main;
