--  O1: a name that was moved may not be read.
--> spark check O1_read_after_move.adb
--> status 1
--> err O1_read_after_move.adb:14:9: O1 X.all: moved
with Ada.Unchecked_Deallocation;
procedure Main is
   type Int_Ptr is access Integer;
   procedure Free is new Ada.Unchecked_Deallocation (Integer, Int_Ptr);
   X, Y : Int_Ptr;
   N    : Integer;
begin
   X := new Integer'(7);
   Y := X;
   N := X.all;
   Free (Y);
end Main;
