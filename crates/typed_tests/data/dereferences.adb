procedure Main is
type Row is array (1 .. 3) of Integer;
type Cell;
type List is access Cell;
type Cell is record Value : Integer; Cells : Row; Next : List; end record;
L : List;
I : Integer;
begin
I := L.Next.all.Cells (L.Cells (I)) + L.Next.Next.Value;
end Main;
