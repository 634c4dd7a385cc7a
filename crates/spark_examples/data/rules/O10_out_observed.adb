--  O10: what is observed may not be an out actual, which is written.
--> spark check O10_out_observed.adb
--> status 1
--> err O10_out_observed.adb:23:22: O10 X.all: observed
package Numbers is
   procedure Clear (N : out Integer);
end Numbers;
package body Numbers is
   procedure Clear (N : out Integer) is
   begin
      N := 0;
   end Clear;
end Numbers;
with Numbers;
procedure Main is
   type Int_Ptr is access Integer;
   X : Int_Ptr := new Integer'(7);
   N : Integer;
begin
   declare
      C : access constant Integer := X;
   begin
      Numbers.Clear (X.all);
      N := C.all;
   end;
end Main;
