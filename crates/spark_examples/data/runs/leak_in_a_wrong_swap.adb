--  The first assignment of this swap loses what A had.
--> spark run leak_in_a_wrong_swap.adb
--> status 5
--> out  2
--> err leak_in_a_wrong_swap.adb:18:7: leak of cell 1
package Swaps is
   type Int_Ptr is access Integer;
   type Pair is record
      Left  : Int_Ptr;
      Right : Int_Ptr;
   end record;
   procedure Swap (A, B : in out Int_Ptr);
end Swaps;

package body Swaps is
   procedure Swap (A, B : in out Int_Ptr) is
   begin
      A := B;
      B := null;
   end Swap;
end Swaps;

with Ada.Text_IO; use Ada.Text_IO;
with Ada.Unchecked_Deallocation;
with Swaps; use Swaps;
procedure Main is
   procedure Free is new Ada.Unchecked_Deallocation (Integer, Int_Ptr);
   P : Pair := (new Integer'(1), new Integer'(2));
begin
   Swap (P.Left, P.Right);
   Put_Line (Integer'Image (P.Left.all));
   Free (P.Left);
   Free (P.Right);
end Main;
