--  V2: an observer may not be given a source that ends before it.
--> spark check V2_source_in_an_inner_block.adb
--> status 1
--> err V2_source_in_an_inner_block.adb:21:15: V2 M: source ends before the observer
procedure Main is
   type Cell;
   type List is access Cell;
   type Cell is record
      Value : Integer;
      Next  : List;
   end record;
   L : List := new Cell'(1, null);
   N : Integer;
begin
   declare
      C : access constant Cell := L;
   begin
      declare
         M : List := new Cell'(2, null);
      begin
         C := M;
      end;
      N := C.Value;
   end;
end Main;
