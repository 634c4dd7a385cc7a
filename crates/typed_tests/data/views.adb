package P is
type Cell; type List is access Cell;
type Cell is record Value : Integer; Next : List; end record;
function Last (L : access Cell) return access Cell;
end P;
package body P is
function Last (L : access Cell) return access Cell is
B : access Cell := L; begin
while B.Next /= null loop B := B.Next; end loop;
return B; end Last;
end P;
with P, Ada.Text_IO; use P, Ada.Text_IO;
procedure Main is
X : List := new Cell'(1, new Cell'(2, null));
begin
declare
B : access Cell := Last (X);
C : access constant Cell := X.Next;
begin B.Value := 9; C := C.Next; end;
Put_Line (Integer'Image (X.Next.Value) & " ""a""");
end Main;
