--  O1: a freed name is null and not moved, so no rule of ownership forbids to read through it.
--> spark check O1_read_after_free.adb
--> status 0
--> out accepted
with Ada.Unchecked_Deallocation;
procedure Main is
   type Int_Ptr is access Integer;
   procedure Free is new Ada.Unchecked_Deallocation (Integer, Int_Ptr);
   X : Int_Ptr;
   N : Integer;
begin
   X := new Integer'(1);
   Free (X);
   N := X.all;
end Main;
