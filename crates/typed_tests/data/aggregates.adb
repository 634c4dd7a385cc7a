procedure Main is
type Row is array (1 .. 2) of Integer;
type Pair is record First, Second : Integer; Cells : Row; end record;
P : Pair := (Cells => (others => 4), Second => 2, First => 1);
Q : constant Pair := (3, -2147483648, (5, 6));
begin
P := (First => Q.Second, Cells => Q.Cells, Second => P.Cells'Last);
end Main;
