--  Two components of a record change places by a call: each formal is copied back to its own.
--> spark run copied_back_to_components.adb
--> status 0
--> out  2
--> out  1
package Swaps is
   type Int_Ptr is access Integer;
   type Pair is record
      Left  : Int_Ptr;
      Right : Int_Ptr;
   end record;
   procedure Swap (A, B : in out Int_Ptr);
end Swaps;

package body Swaps is
   procedure Swap (A, B : in out Int_Ptr) is
      Old : Int_Ptr := A;
   begin
      A := B;
      B := Old;
   end Swap;
end Swaps;

with Ada.Text_IO; use Ada.Text_IO;
with Ada.Unchecked_Deallocation;
with Swaps; use Swaps;
procedure Main is
   procedure Free is new Ada.Unchecked_Deallocation (Integer, Int_Ptr);
   P : Pair := (new Integer'(1), new Integer'(2));
begin
   Swap (P.Left, P.Right);
   Put_Line (Integer'Image (P.Left.all));
   Put_Line (Integer'Image (P.Right.all));
   Free (P.Left);
   Free (P.Right);
end Main;
