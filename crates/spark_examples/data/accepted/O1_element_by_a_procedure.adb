--  O1: an element is taken out by a procedure with an in out formal, which leaves it a value.
--> spark check O1_element_by_a_procedure.adb
--> status 0
--> out accepted
package Rows is
   type Int_Ptr is access Integer;
   type Row is array (1 .. 2) of Int_Ptr;
   procedure Take (From : in out Int_Ptr; To : out Int_Ptr);
end Rows;
package body Rows is
   procedure Take (From : in out Int_Ptr; To : out Int_Ptr) is
   begin
      To := From;
      From := null;
   end Take;
end Rows;
with Ada.Text_IO;
with Rows; use Rows;
procedure Main is
   R : Row := (new Integer'(7), new Integer'(8));
   X : Int_Ptr;
begin
   Take (R (1), X);
   Ada.Text_IO.Put_Line (Integer'Image (X.all + R (2).all));
end Main;
