package P is
type T is private;
A, B : Integer := 1 + 2;
K : constant Integer := A;
procedure Q;
private
type T is access Integer;
X : T := new Integer;
end P;
package body p is
Y : constant Boolean := A = 3 or else A /= B;
M : constant := 3;
procedure Q is
N : Integer := M;
begin
X.all := N; B := Integer'First;
end Q;
Z : T;
end P;
with P;
procedure Main is
begin
P.Q;
end Main;
