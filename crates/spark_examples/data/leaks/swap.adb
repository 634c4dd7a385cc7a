--  Two cells change places: what was moved away is excused when it gets a value.
--> spark leaks swap.adb
--> status 0
--> out swap.adb:18:4: T checked
--> out swap.adb:19:4: A excused
--> out swap.adb:20:4: B excused
--> out swap.adb:23:1: A checked
--> out swap.adb:23:1: B checked
--> out swap.adb:23:1: T excused
with Ada.Unchecked_Deallocation;
procedure Swap is
   type Int_Ptr is access Integer;
   procedure Free is new Ada.Unchecked_Deallocation (Integer, Int_Ptr);
   A : Int_Ptr := new Integer'(1);
   B : Int_Ptr := new Integer'(2);
   T : Int_Ptr;
begin
   T := A;
   A := B;
   B := T;
   Free (A);
   Free (B);
end Swap;
