--  Two owners that are exchanged, with what `spark` reads alone.
--> spark check swap_owners.adb
--> status 0
--> out accepted
package Buffers with SPARK_Mode is
   type Buffer is array (1 .. 4) of Integer;
   type Buffer_Ptr is access Buffer;
   type Double is record
      Front, Back : Buffer_Ptr;
   end record;

   procedure Swap (A, B : in out Buffer_Ptr);
   procedure Flip (D : in out Double);
   function Sum (B : Buffer_Ptr) return Integer;
end Buffers;
package body Buffers with SPARK_Mode is
   procedure Swap (A, B : in out Buffer_Ptr)
   is
      Tmp : Buffer_Ptr := A;
   begin
      A := B;
      B := Tmp;
   end Swap;

   procedure Flip (D : in out Double) is
   begin
      Swap (D.Front, D.Back);
   end Flip;

   function Sum (B : Buffer_Ptr) return Integer is
      S : Integer := 0;
   begin
      for I in Buffer'Range loop
         S := S + B (I);
      end loop;
      return S;
   end Sum;

end Buffers;
with Ada.Text_IO; use Ada.Text_IO;
with Buffers; use Buffers;
procedure Main with SPARK_Mode is
   D : Double := (Front => new Buffer'(1, 2, 3, 4), Back => new Buffer'(others => 0));
begin
   for Frame in 1 .. 3 loop
      D.Back.all := D.Front.all;
      D.Back (1) := Frame;
      Flip (D);
      Put_Line (Integer'Image (Sum (D.Front)));
   end loop;
end Main;
