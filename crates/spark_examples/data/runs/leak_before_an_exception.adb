--  A cell was lost before the exception. The lines of lost cells come first, the ending last.
--> spark run leak_before_an_exception.adb
--> status 3
--> out before
--> err leak_before_an_exception.adb:12:4: leak of cell 1
--> err leak_before_an_exception.adb:14:4: raised Constraint_Error
with Ada.Text_IO; use Ada.Text_IO;
procedure Main is
   type Int_Ptr is access Integer;
   P : Int_Ptr := new Integer'(1);
begin
   P := null;
   Put_Line ("before");
   P.all := 2;
   Put_Line ("after");
end Main;
