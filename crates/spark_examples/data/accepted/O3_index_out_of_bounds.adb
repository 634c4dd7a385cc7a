--  O3: whether an index is within its bounds is no matter of ownership.
--> spark check O3_index_out_of_bounds.adb
--> status 0
--> out accepted
with Ada.Text_IO;
procedure Main is
   type Row is array (1 .. 3) of Integer;
   type Account is record
      Months : Row;
      Total  : Integer;
   end record;
   A : Account := ((1, 2, 3), 6);
begin
   for I in 1 .. 3 loop
      A.Months (I + 1) := A.Months (I);
   end loop;
   Ada.Text_IO.Put_Line (Integer'Image (A.Total));
end Main;
