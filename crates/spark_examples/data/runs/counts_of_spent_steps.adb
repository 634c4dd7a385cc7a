--  The end of the scope, where the object would be lost, isn't reached.
--> spark run --stats --steps=2 counts_of_spent_steps.adb
--> status 4
--> err steps spent: 2
--> err steps 2, made 1, freed 0, leaked 0, slots 1
procedure Main is
   type Int_Ptr is access Integer;
   X : Int_Ptr := new Integer'(7);
begin
   X.all := 8;
   X.all := 9;
end Main;
