package P is
function F (N : Integer) return Integer;
end P;
package body P is
function F (N : Integer) return Integer is begin return N; end F;
end P;
with P; use P;
procedure Main is
B : Boolean; N : Integer;
begin
B := N > 0 and then F (N + F (1)) > 2;
while B or else F (2) = 3 loop B := False; end loop;
end Main;
