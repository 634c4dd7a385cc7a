--  V4: the rules on the text look at statements that no path reaches, too.
--> spark check V4_never_reached.adb
--> status 1
--> err V4_never_reached.adb:14:12: V4 Y: not rooted in the borrower
procedure Main is
   type Int_Ptr is access Integer;
   X : Int_Ptr := new Integer'(1);
   Y : Int_Ptr := new Integer'(2);
begin
   declare
      B : access Integer := X;
   begin
      return;
      B := Y;
   end;
end Main;
