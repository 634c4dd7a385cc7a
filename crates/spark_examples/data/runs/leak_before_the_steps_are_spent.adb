--  A cell is lost in each iteration. The budget ends the run before the third one.
--> spark run --steps=5 leak_before_the_steps_are_spent.adb
--> status 4
--> err leak_before_the_steps_are_spent.adb:12:7: leak of cell 1
--> err leak_before_the_steps_are_spent.adb:12:7: leak of cell 2
--> err steps spent: 5
procedure Main is
   type Int_Ptr is access Integer;
   P : Int_Ptr := new Integer'(0);
begin
   while P.all < 10 loop
      P := new Integer'(P.all + 1);
   end loop;
end Main;
