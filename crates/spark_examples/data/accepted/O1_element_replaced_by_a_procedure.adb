--  O1: a procedure that takes an element as `in out` may move it away and give it a value.
--> spark check O1_element_replaced_by_a_procedure.adb
--> status 0
--> out accepted
package Rows is
   type Int_Ptr is access Integer;
   type Row is array (1 .. 3) of Int_Ptr;
   procedure Replace (E : in out Int_Ptr; N : out Integer);
end Rows;
with Ada.Unchecked_Deallocation;
package body Rows is
   procedure Free is new Ada.Unchecked_Deallocation (Integer, Int_Ptr);

   procedure Replace (E : in out Int_Ptr; N : out Integer) is
      X : Int_Ptr := E;
   begin
      E := new Integer'(10 * X.all);
      N := E.all;
      Free (X);
   end Replace;
end Rows;
with Rows; use Rows;
procedure Main is
   R : Row;
   N : Integer;
begin
   for I in R'Range loop
      R (I) := new Integer'(I);
   end loop;
   for I in R'Range loop
      Replace (R (I), N);
   end loop;
end Main;
