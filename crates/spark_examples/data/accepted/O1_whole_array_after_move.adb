--  O1: an array that is given a value as a whole has one in each element.
--> spark check O1_whole_array_after_move.adb
--> status 0
--> out accepted
procedure Main is
   type Int_Ptr is access Integer;
   type Row is array (1 .. 3) of Int_Ptr;
   R : Row;
   X : Int_Ptr;
   N : Integer;
begin
   for I in R'Range loop
      R (I) := new Integer'(I);
      X := R (I);
      R := (new Integer'(I), new Integer'(2), new Integer'(3));
      N := R (I).all;
   end loop;
end Main;
