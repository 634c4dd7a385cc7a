--  O10: after the block of the observer the object may be an out actual.
--> spark check O10_out_after_the_block.adb
--> status 0
--> out accepted
package Numbers is
   procedure Clear (N : out Integer);
end Numbers;
package body Numbers is
   procedure Clear (N : out Integer) is
   begin
      N := 0;
   end Clear;
end Numbers;
with Numbers;
procedure Main is
   type Int_Ptr is access Integer;
   X : Int_Ptr := new Integer'(7);
   N : Integer;
begin
   declare
      C : access constant Integer := X;
   begin
      N := C.all;
   end;
   Numbers.Clear (X.all);
end Main;
