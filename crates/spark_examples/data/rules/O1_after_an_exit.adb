--  O1: the exit leaves the loop before the value is moved back.
--> spark check O1_after_an_exit.adb
--> status 1
--> err O1_after_an_exit.adb:17:9: O1 X.all: moved
procedure Main is
   type Int_Ptr is access Integer;
   X : Int_Ptr := new Integer'(1);
   Y : Int_Ptr;
   N : Integer;
begin
   loop
      Y := X;
      exit when Y.all > 100;
      Y.all := 2 * Y.all;
      X := Y;
   end loop;
   N := X.all;
end Main;
