--  Two owners that are exchanged, as it is written in SPARK.
--> spark check swap_owners.adb
--> status 2
--> err swap_owners.adb:13:19: P1 syntax
with Ada.Text_IO; use Ada.Text_IO;
procedure Main with SPARK_Mode is
   type Buffer is array (1 .. 4) of Integer;
   type Buffer_Ptr is access Buffer;
   type Double is record
      Front, Back : Buffer_Ptr;
   end record;

   procedure Swap (A, B : in out Buffer_Ptr) with
     Pre  => A /= null and B /= null,
     Post => A /= null and B /= null
   is
      Tmp : Buffer_Ptr := A;
   begin
      A := B;
      B := Tmp;
   end Swap;

   procedure Flip (D : in out Double) is
   begin
      Swap (D.Front, D.Back);
   end Flip;

   function Sum (B : not null access constant Buffer) return Integer is
      S : Integer := 0;
   begin
      for I in B'Range loop
         S := S + B (I);
      end loop;
      return S;
   end Sum;

   D : Double := (Front => new Buffer'(1, 2, 3, 4), Back => new Buffer'(others => 0));
begin
   for Frame in 1 .. 3 loop
      D.Back.all := D.Front.all;
      D.Back (1) := Frame;
      Flip (D);
      Put_Line (Integer'Image (Sum (D.Front)));
   end loop;
   pragma Assert (D.Front (1) = 3);
end Main;
