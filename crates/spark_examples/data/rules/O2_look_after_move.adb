--  O2: a name that was moved may not be compared with null.
--> spark check O2_look_after_move.adb
--> status 1
--> err O2_look_after_move.adb:11:7: O2 X: moved
procedure Main is
   type Int_Ptr is access Integer;
   X : Int_Ptr := new Integer'(7);
   Y : Int_Ptr;
begin
   Y := X;
   if X = null then
      Y := null;
   end if;
end Main;
