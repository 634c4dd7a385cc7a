--  V1: what an in out formal leads to may be written.
--> spark check V1_part_of_an_in_out_record.adb
--> status 0
--> out accepted
package Pairs is
   type Int_Ptr is access Integer;
   type Pair is record
      Left, Right : Int_Ptr;
   end record;
   procedure Clear (P : in out Pair);
end Pairs;
package body Pairs is
   procedure Clear (P : in out Pair) is
   begin
      P.Left.all := 0;
   end Clear;
end Pairs;
