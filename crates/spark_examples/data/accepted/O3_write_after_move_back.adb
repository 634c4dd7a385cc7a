--  O3: a name that was given its value back may be written through.
--> spark check O3_write_after_move_back.adb
--> status 0
--> out accepted
with Ada.Unchecked_Deallocation;
procedure Main is
   type Int_Ptr is access Integer;
   X, Y : Int_Ptr;
begin
   X := new Integer'(1);
   Y := X;
   X := Y;
   X.all := 1;
end Main;
