--  An exception ends the run in the middle, so the end of the scope of P is never reached. P owns
--  its cell until the end, and no line names it.
--> spark run exception_before_the_end_of_the_scope.adb
--> status 3
--> err exception_before_the_end_of_the_scope.adb:11:4: raised Constraint_Error
procedure Main is
   type Int_Ptr is access Integer;
   P : Int_Ptr := new Integer'(1);
   Q : Int_Ptr;
begin
   Q.all := P.all;
end Main;
