--  O10: the new owner leads to an in out actual.
--> spark check O10_in_out_part_of_new_owner.adb
--> status 0
--> out accepted
package Numbers is
   procedure Increment (N : in out Integer);
end Numbers;
package body Numbers is
   procedure Increment (N : in out Integer) is
   begin
      N := N + 1;
   end Increment;
end Numbers;
with Numbers;
procedure Main is
   type Int_Ptr is access Integer;
   X : Int_Ptr := new Integer'(7);
   Y : Int_Ptr := X;
begin
   Numbers.Increment (Y.all);
end Main;
