--  O1: all elements of an array are one place, so one that is given a value gives none back.
--> spark check O1_moved_element.adb
--> status 1
--> err O1_moved_element.adb:17:12: O4 R(?): moved
--> err O1_moved_element.adb:19:12: O1 R(?).all: moved
procedure Main is
   type Int_Ptr is access Integer;
   type Row is array (1 .. 3) of Int_Ptr;
   R : Row;
   X : Int_Ptr;
   N : Integer;
begin
   for I in R'Range loop
      R (I) := new Integer'(I);
   end loop;
   for I in R'Range loop
      X := R (I);
      R (I) := new Integer'(10 * X.all);
      N := R (I).all;
   end loop;
end Main;
