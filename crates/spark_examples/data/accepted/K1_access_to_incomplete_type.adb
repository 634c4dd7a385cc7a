--  K1: an incomplete type may be designated before its full type.
--> spark check K1_access_to_incomplete_type.adb
--> status 0
--> out accepted
procedure Main is
   type Cell;
   type List is access Cell;
   type Cell is record
      Value : Integer;
      Next  : List;
   end record;
   First : Cell;
begin
   null;
end Main;
