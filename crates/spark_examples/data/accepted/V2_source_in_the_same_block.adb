--  V2: an observer may be given a source that lasts as long as it does.
--> spark check V2_source_in_the_same_block.adb
--> status 0
--> out accepted
procedure Main is
   type Cell;
   type List is access Cell;
   type Cell is record
      Value : Integer;
      Next  : List;
   end record;
   L : List := new Cell'(1, null);
   N : Integer;
begin
   declare
      M : List := new Cell'(2, null);
      C : access constant Cell := L;
   begin
      C := M;
      N := C.Value;
   end;
end Main;
