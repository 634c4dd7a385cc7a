--  Two cells are lost: one is overwritten, one ends with its owner.
--> spark leaks lose.adb
--> status 0
--> out lose.adb:10:4: X checked
--> out lose.adb:11:1: X checked
procedure Lose is
   type Int_Ptr is access Integer;
   X : Int_Ptr := new Integer'(1);
begin
   X := new Integer'(2);
end Lose;
