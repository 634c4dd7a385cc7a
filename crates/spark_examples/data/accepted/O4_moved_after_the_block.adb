--  O4: after the block of the observer the object may be moved.
--> spark check O4_moved_after_the_block.adb
--> status 0
--> out accepted
procedure Main is
   type Int_Ptr is access Integer;
   X : Int_Ptr := new Integer'(1);
   Y : Int_Ptr;
   N : Integer;
begin
   declare
      C : access constant Integer := X;
   begin
      N := C.all;
   end;
   Y := X;
end Main;
