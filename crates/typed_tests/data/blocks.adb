procedure Main is
N : Integer;
begin
declare
A : Integer := N;
begin
begin null; end;
for I in 1 .. 2 loop declare B, C : Integer := I; begin A := B + C; end; end loop;
end;
while N > 0 loop
exit when N = 5 and then (N) /= 4;
if N < 3 then return; elsif N >= 7 then null; else exit; end if;
end loop;
loop begin exit; end; end loop;
end Main;
