--  The scope of the object ends in each iteration of the loop.
--> spark run leak_at_the_end_of_a_block.adb
--> status 5
--> err leak_at_the_end_of_a_block.adb:15:7: leak of cell 1
--> err leak_at_the_end_of_a_block.adb:15:7: leak of cell 2
--> err leak_at_the_end_of_a_block.adb:15:7: leak of cell 3
procedure Main is
   type Int_Ptr is access Integer;
begin
   for I in 1 .. 3 loop
      declare
         P : Int_Ptr := new Integer'(I);
      begin
         P.all := P.all + 1;
      end;
   end loop;
end Main;
