--  O9: a value for an element ends no move, since no index is known.
--> spark check O9_element_given_a_value.adb
--> status 1
--> err O9_element_given_a_value.adb:19:4: O9 R(?): moved
package Rows is
   type Int_Ptr is access Integer;
   type Row is array (1 .. 3) of Int_Ptr;
   procedure Drop (R : in out Row; I : Positive);
end Rows;
with Ada.Unchecked_Deallocation;
package body Rows is
   procedure Free is new Ada.Unchecked_Deallocation (Integer, Int_Ptr);

   procedure Drop (R : in out Row; I : Positive) is
      X : Int_Ptr := R (I);
   begin
      R (I) := null;
      Free (X);
   end Drop;
end Rows;
with Rows; use Rows;
procedure Main is
   R : Row := (others => null);
begin
   Drop (R, 1);
end Main;
