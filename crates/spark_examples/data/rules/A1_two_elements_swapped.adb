--  A1: two elements of one array overlap, since no index is looked at.
--> spark check A1_two_elements_swapped.adb
--> status 1
--> err A1_two_elements_swapped.adb:14:14: A1 R(?): overlaps another actual
package P is
type Ptr is access Integer; type Row is array (1 .. 3) of Ptr;
procedure Swap (A, B : in out Ptr);
end P;
package body P is
procedure Swap (A, B : in out Ptr) is T : Ptr := A; begin A := B; B := T; end Swap;
end P;
with P; use P;
procedure Main is R : Row; begin
Swap (R (1), R (2));
end Main;
