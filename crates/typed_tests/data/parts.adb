procedure Main is
type Color is (Red, Green, Blue);
subtype Warm is Color range Green .. Blue;
type Row is array (0 .. 1) of Integer;
type Row_Ptr is access Row;
type Pair is record Cells : Row; Link : Row_Ptr; end record;
type Table is array (1 .. 2) of Pair;
T : Table;
C : Color := Warm'First;
R : Row_Ptr := new Row'(others => 0);
F : Boolean := null /= R xor not (C = Color'Last);
N : Integer := abs (-3) mod 2;
begin
T (N).Cells (T (2).Link (0)) := R (Row'Length - 1);
T (1) := (Link => null, Cells => R.all);
T := ((Cells => (1, 2), Link => null), (R.all, null));
R.all (Table'Last) := T (1).Cells'First;
end Main;
