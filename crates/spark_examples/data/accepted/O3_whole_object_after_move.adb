--  O3: a moved name itself may be written, as a whole.
--> spark check O3_whole_object_after_move.adb
--> status 0
--> out accepted
with Ada.Unchecked_Deallocation;
procedure Main is
   type Int_Ptr is access Integer;
   X, Y : Int_Ptr;
begin
   X := new Integer'(1);
   Y := X;
   X := null;
   Y.all := 2;
end Main;
