--  O1: each iteration gives back what it moves, so the next one may read it.
--> spark check O1_moved_back_in_each_iteration.adb
--> status 0
--> out accepted
procedure Main is
   type Int_Ptr is access Integer;
   X   : Int_Ptr := new Integer'(7);
   Y   : Int_Ptr;
   Sum : Integer := 0;
begin
   for I in 1 .. 2 loop
      Sum := Sum + X.all;
      Y := X;
      Y.all := Y.all + I;
      X := Y;
   end loop;
end Main;
