--  O4: a procedure that takes an element as `in out` may move it out, and leave null.
--> spark check O4_element_by_a_procedure.adb
--> status 0
--> out accepted
package Rows is
   type Int_Ptr is access Integer;
   type Row is array (1 .. 3) of Int_Ptr;
   procedure Take (E : in out Int_Ptr; To : out Int_Ptr);
end Rows;
package body Rows is
   procedure Take (E : in out Int_Ptr; To : out Int_Ptr) is
   begin
      To := E;
      E := null;
   end Take;
end Rows;
with Rows; use Rows;
procedure Main is
   R    : Row := (others => null);
   X, Y : Int_Ptr;
begin
   R (1) := new Integer'(1);
   R (2) := new Integer'(2);
   Take (R (1), X);
   Take (R (2), Y);
end Main;
