--  V1: nothing may be moved out through an observer.
--> spark check V1_moved_out_of_an_observer.adb
--> status 1
--> err V1_moved_out_of_an_observer.adb:18:15: V1 C.all.Next: constant view
procedure Main is
   type Cell;
   type List is access Cell;
   type Cell is record
      Value : Integer;
      Next  : List;
   end record;
   L    : List := new Cell'(1, new Cell'(2, null));
   Rest : List;
begin
   declare
      C : access constant Cell := L;
   begin
      Rest := C.Next;
   end;
end Main;
