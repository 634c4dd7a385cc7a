--  O4: at the end a name may be moved, and its new owner need not be freed.
--> spark check O4_moved_at_the_end.adb
--> status 0
--> out accepted
with Ada.Unchecked_Deallocation;
procedure Main is
   type Int_Ptr is access Integer;
   X, Y : Int_Ptr;
begin
   X := new Integer'(1);
   Y := X;
end Main;
