--  A1: no index is known, so two elements of one array overlap.
--> spark check A1_two_elements.adb
--> status 1
--> err A1_two_elements.adb:22:20: A1 R(?): overlaps another actual
package Rows is
   procedure Swap (A, B : in out Integer);
end Rows;
package body Rows is
   procedure Swap (A, B : in out Integer) is
      Old : Integer := A;
   begin
      A := B;
      B := Old;
   end Swap;
end Rows;
with Rows; use Rows;
procedure Main is
   type Row is array (1 .. 4) of Integer;
   R : Row := (1, 2, 3, 4);
begin
   for I in 1 .. 2 loop
      Swap (R (I), R (5 - I));
   end loop;
end Main;
