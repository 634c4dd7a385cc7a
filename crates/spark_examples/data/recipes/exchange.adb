--  Two elements of an array are exchanged: three swaps with an object of its own.
--> spark check exchange.adb
--> status 0
--> out accepted
package Rows is
   type Int_Ptr is access Integer;
   type Row is array (1 .. 4) of Int_Ptr;
   procedure Exchange (R : in out Row; I, J : Positive);
end Rows;
package body Rows is
   procedure Swap (A, B : in out Int_Ptr) is
      Old : Int_Ptr := A;
   begin
      A := B;
      B := Old;
   end Swap;

   procedure Exchange (R : in out Row; I, J : Positive) is
      Holder : Int_Ptr;
   begin
      if I /= J then
         Swap (R (I), Holder);
         Swap (R (J), Holder);
         Swap (R (I), Holder);
      end if;
   end Exchange;
end Rows;
with Ada.Text_IO;
with Rows; use Rows;
procedure Main is
   R : Row := (others => null);
begin
   R (1) := new Integer'(1);
   R (4) := new Integer'(4);
   Exchange (R, 1, 4);
   Ada.Text_IO.Put_Line (Integer'Image (R (1).all) & Integer'Image (R (4).all));
end Main;
