--  O4: a name that has a new value may be moved again.
--> spark check O4_move_after_new_value.adb
--> status 0
--> out accepted
with Ada.Unchecked_Deallocation;
procedure Main is
   type Int_Ptr is access Integer;
   X, Y, Z : Int_Ptr;
begin
   X := new Integer'(1);
   Y := X;
   X := new Integer'(2);
   Z := X;
end Main;
