--  O3: after the block of the observer the object may be written again.
--> spark check O3_written_after_the_observer.adb
--> status 0
--> out accepted
procedure Main is
   type Int_Ptr is access Integer;
   X : Int_Ptr := new Integer'(1);
   N : Integer;
begin
   declare
      C : access constant Integer := X;
   begin
      N := C.all;
   end;
   X.all := N + 1;
   X := new Integer'(N);
end Main;
