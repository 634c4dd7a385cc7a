--  A1: two elements are exchanged by three swaps with an object of its own.
--> spark check A1_three_swaps.adb
--> status 0
--> out accepted
package Rows is
   procedure Swap (A, B : in out Integer);
end Rows;
package body Rows is
   procedure Swap (A, B : in out Integer) is
      Old : Integer := A;
   begin
      A := B;
      B := Old;
   end Swap;
end Rows;
with Rows; use Rows;
procedure Main is
   type Row is array (1 .. 4) of Integer;
   R      : Row := (1, 2, 3, 4);
   Holder : Integer := 0;
begin
   for I in 1 .. 2 loop
      Swap (R (I), Holder);
      Swap (R (5 - I), Holder);
      Swap (R (I), Holder);
   end loop;
end Main;
