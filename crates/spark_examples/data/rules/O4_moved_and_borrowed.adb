--  O4: in its second iteration the loop moves a list that is borrowed and was moved before.
--> spark check O4_moved_and_borrowed.adb
--> status 1
--> err O4_moved_and_borrowed.adb:17:29: O5 L: moved
--> err O4_moved_and_borrowed.adb:19:15: O4 L: moved
--> err O4_moved_and_borrowed.adb:19:15: O4 L: borrowed
procedure Main is
   type Cell;
   type List is access Cell;
   type Cell is record
      Next : List;
   end record;
   L, M : List;
begin
   loop
      declare
         B : access Cell := L;
      begin
         M := L;
         exit when M = null;
      end;
   end loop;
end Main;
