--  O1: the exit leaves the loop while X has its value.
--> spark check O1_exit_before_the_move.adb
--> status 0
--> out accepted
procedure Main is
   type Int_Ptr is access Integer;
   X : Int_Ptr := new Integer'(1);
   Y : Int_Ptr;
   N : Integer;
begin
   loop
      exit when X.all > 100;
      Y := X;
      Y.all := 2 * Y.all;
      X := Y;
   end loop;
   N := X.all;
end Main;
