--  V2: a second observer in the inner block looks at what is declared there.
--> spark check V2_second_observer.adb
--> status 0
--> out accepted
procedure Main is
   type Cell;
   type List is access Cell;
   type Cell is record
      Value : Integer;
      Next  : List;
   end record;
   L : List := new Cell'(1, null);
   N : Integer;
begin
   declare
      C : access constant Cell := L;
   begin
      declare
         M : List := new Cell'(2, null);
      begin
         declare
            D : access constant Cell := M;
         begin
            N := D.Value;
         end;
      end;
      N := C.Value;
   end;
end Main;
