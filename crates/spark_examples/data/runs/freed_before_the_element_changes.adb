--  What the last element owns is freed before the element gets another cell.
--> spark run freed_before_the_element_changes.adb
--> status 0
with Ada.Unchecked_Deallocation;
procedure Main is
   type Int_Ptr is access Integer;
   type Row is array (1 .. 3) of Int_Ptr;
   procedure Free is new Ada.Unchecked_Deallocation (Integer, Int_Ptr);
   R : Row;
begin
   for I in Row'Range loop
      R (I) := new Integer'(I);
   end loop;
   Free (R (3));
   R (3) := new Integer'(0);
   for I in Row'Range loop
      Free (R (I));
   end loop;
end Main;
