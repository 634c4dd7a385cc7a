--  O9: a procedure takes an element of a formal out, and leaves null.
--> spark check O9_element_by_a_procedure.adb
--> status 0
--> out accepted
package Rows is
   type Int_Ptr is access Integer;
   type Row is array (1 .. 3) of Int_Ptr;
   procedure Drop (R : in out Row; I : Positive);
end Rows;
with Ada.Unchecked_Deallocation;
package body Rows is
   procedure Free is new Ada.Unchecked_Deallocation (Integer, Int_Ptr);

   procedure Take (E : in out Int_Ptr; To : out Int_Ptr) is
   begin
      To := E;
      E := null;
   end Take;

   procedure Drop (R : in out Row; I : Positive) is
      X : Int_Ptr;
   begin
      Take (R (I), X);
      Free (X);
   end Drop;
end Rows;
with Rows; use Rows;
procedure Main is
   R : Row := (others => null);
begin
   Drop (R, 1);
end Main;
