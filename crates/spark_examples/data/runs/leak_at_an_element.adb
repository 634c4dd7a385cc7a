--  The last element is filled twice. Cells are numbered in the order in which they are made.
--> spark run leak_at_an_element.adb
--> status 5
--> err leak_at_an_element.adb:15:4: leak of cell 3
with Ada.Unchecked_Deallocation;
procedure Main is
   type Int_Ptr is access Integer;
   type Row is array (1 .. 3) of Int_Ptr;
   procedure Free is new Ada.Unchecked_Deallocation (Integer, Int_Ptr);
   R : Row;
begin
   for I in Row'Range loop
      R (I) := new Integer'(I);
   end loop;
   R (3) := new Integer'(0);
   for I in Row'Range loop
      Free (R (I));
   end loop;
end Main;
