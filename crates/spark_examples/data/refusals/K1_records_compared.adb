--  K1: only scalars are compared, and access objects with null. Ada allows it.
--> spark check K1_records_compared.adb
--> status 2
--> err K1_records_compared.adb:12:12: K1 wrong type
procedure Main is
   type Pair is record
      A, B : Integer;
   end record;
   X, Y : Pair := (1, 2);
   Same : Boolean;
begin
   Same := X = Y;
end Main;
