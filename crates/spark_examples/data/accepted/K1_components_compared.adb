--  K1: components that are scalars are compared.
--> spark check K1_components_compared.adb
--> status 0
--> out accepted
procedure Main is
   type Pair is record
      A, B : Integer;
   end record;
   X, Y : Pair := (1, 2);
   Same : Boolean;
begin
   Same := X.A = Y.A and X.B = Y.B;
end Main;
