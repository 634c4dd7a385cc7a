--  O10: an Integer that is an in out actual is read and written, so its prefix may not be moved.
--> spark check O10_in_out_part.adb
--> status 1
--> err O10_in_out_part.adb:20:23: O10 X.all: moved
package Numbers is
   procedure Increment (N : in out Integer);
end Numbers;
package body Numbers is
   procedure Increment (N : in out Integer) is
   begin
      N := N + 1;
   end Increment;
end Numbers;
with Numbers;
procedure Main is
   type Int_Ptr is access Integer;
   X : Int_Ptr := new Integer'(7);
   Y : Int_Ptr := X;
begin
   Numbers.Increment (X.all);
end Main;
