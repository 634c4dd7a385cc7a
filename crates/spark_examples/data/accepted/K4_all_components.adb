--  K4: each component has its value, in any order where all are given by name.
--> spark check K4_all_components.adb
--> status 0
--> out accepted
procedure Main is
   type Pair is record
      A, B : Integer;
   end record;
   X : Pair := (B => 2, A => 1);
begin
   null;
end Main;
