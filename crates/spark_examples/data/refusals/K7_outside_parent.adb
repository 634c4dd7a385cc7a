--  K7: the bounds of a subtype lie within its parent's. Ada looks at that in a run.
--> spark check K7_outside_parent.adb
--> status 2
--> err K7_outside_parent.adb:7:36: K7 not static
procedure Main is
   subtype Digit is Natural range 0 .. 9;
   subtype Hex is Digit range 0 .. 15;
begin
   null;
end Main;
