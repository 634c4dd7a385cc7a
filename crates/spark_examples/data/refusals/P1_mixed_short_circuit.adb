--  P1: a chain of and has no and then.
--> spark check P1_mixed_short_circuit.adb
--> status 2
--> err P1_mixed_short_circuit.adb:9:29: P1 syntax
procedure Main is
   N : Integer := 1;
   B : Boolean;
begin
   B := N = 1 and N = 2 and then N = 3;
end Main;
