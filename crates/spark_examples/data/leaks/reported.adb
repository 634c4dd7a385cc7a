--  A program that has reports has no leak plan: its reports are written.
--> spark leaks reported.adb
--> status 1
--> err reported.adb:10:13: O1 X.all: moved
procedure Reported is
   type Int_Ptr is access Integer;
   X, Y : Int_Ptr := new Integer'(1);
begin
   Y := X;
   Y.all := X.all;
end Reported;
