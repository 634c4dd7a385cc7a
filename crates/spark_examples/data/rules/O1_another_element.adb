--  O1: all elements of an array are one place, so with one element the others are moved.
--> spark check O1_another_element.adb
--> status 1
--> err O1_another_element.adb:13:49: O1 R(?).all: moved
with Ada.Text_IO;
procedure Main is
   type Int_Ptr is access Integer;
   type Row is array (1 .. 2) of Int_Ptr;
   R : Row := (new Integer'(7), new Integer'(8));
   X : Int_Ptr;
begin
   X := R (1);
   Ada.Text_IO.Put_Line (Integer'Image (X.all + R (2).all));
end Main;
