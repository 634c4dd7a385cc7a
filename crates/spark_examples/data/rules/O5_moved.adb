--  O5: a name that was moved may not be borrowed.
--> spark check O5_moved.adb
--> status 1
--> err O5_moved.adb:11:29: O5 X: moved
procedure Main is
   type Int_Ptr is access Integer;
   X : Int_Ptr := new Integer'(1);
   Y : Int_Ptr := X;
begin
   declare
      B : access Integer := X;
   begin
      B.all := 2;
   end;
end Main;
