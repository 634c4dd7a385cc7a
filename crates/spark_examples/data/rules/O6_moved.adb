--  O6: a name that was moved may not be observed.
--> spark check O6_moved.adb
--> status 1
--> err O6_moved.adb:12:38: O6 X: moved
procedure Main is
   type Int_Ptr is access Integer;
   X : Int_Ptr := new Integer'(1);
   Y : Int_Ptr := X;
   N : Integer;
begin
   declare
      C : access constant Integer := X;
   begin
      N := C.all;
   end;
end Main;
