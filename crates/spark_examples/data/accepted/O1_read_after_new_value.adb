--  O1: a name that was moved may be read once it has a new value.
--> spark check O1_read_after_new_value.adb
--> status 0
--> out accepted
with Ada.Unchecked_Deallocation;
procedure Main is
   type Int_Ptr is access Integer;
   X, Y : Int_Ptr;
   N    : Integer;
begin
   X := new Integer'(1);
   Y := X;
   X := new Integer'(2);
   N := X.all;
end Main;
