--  O1 and O4: what the first iteration of a loop moves, the second one may neither read nor move.
--> spark check O1_second_iteration_of_a_loop.adb
--> status 1
--> err O1_second_iteration_of_a_loop.adb:13:20: O1 X.all: moved
--> err O1_second_iteration_of_a_loop.adb:14:12: O4 X: moved
procedure Main is
   type Int_Ptr is access Integer;
   X   : Int_Ptr := new Integer'(7);
   Y   : Int_Ptr;
   Sum : Integer := 0;
begin
   for I in 1 .. 2 loop
      Sum := Sum + X.all;
      Y := X;
   end loop;
end Main;
