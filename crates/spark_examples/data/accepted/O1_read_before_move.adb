--  O1: a name may be read before it is moved.
--> spark check O1_read_before_move.adb
--> status 0
--> out accepted
with Ada.Unchecked_Deallocation;
procedure Main is
   type Int_Ptr is access Integer;
   procedure Free is new Ada.Unchecked_Deallocation (Integer, Int_Ptr);
   X, Y : Int_Ptr;
   N    : Integer;
begin
   X := new Integer'(7);
   N := X.all;
   Y := X;
   Free (Y);
end Main;
