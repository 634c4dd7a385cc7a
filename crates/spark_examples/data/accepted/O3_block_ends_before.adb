--  O3: the block of the observer ends with its last use.
--> spark check O3_block_ends_before.adb
--> status 0
--> out accepted
procedure Main is
   type Int_Ptr is access Integer;
   X : Int_Ptr := new Integer'(1);
   N : Integer;
begin
   declare
      C : access constant Integer := X;
   begin
      N := C.all;
   end;
   X.all := 2;
end Main;
