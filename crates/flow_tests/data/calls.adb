package P is
type Ptr is access Integer;
type Pair is record A, B : Ptr; N : Integer; end record;
G, H : Ptr := new Integer'(1);
procedure Make (X : out Pair; Y : in Ptr; N : Integer);
end P;
package body P is
procedure Make (X : out Pair; Y : in Ptr; N : Integer) is begin
G := H;
end Make;
end P;
with P; use P;
procedure Main is R : Pair; begin
Make (R, G, R.N);
end Main;
