procedure Main is
type Color is (Red, Green, Blue, White);
subtype Warm is Color range Red .. Green;
subtype Small is Integer range 1 .. 9;
C : Color := Blue;
N : Integer := 0;
begin
for S in reverse Small loop N := N + S; end loop;
for W in Warm loop C := W; end loop;
for I in Small range 2 .. N loop null; end loop;
for J in 1 .. N loop null; end loop;
case C is when Red .. Green => N := 1; when White => null; when others => N := 2; end case;
case N is when -1 | 2 + 1 .. 5 => null; when others => null; end case;
end Main;
