--  V1: what an in formal of a record type leads to is only looked at.
--> spark check V1_part_of_an_in_record.adb
--> status 1
--> err V1_part_of_an_in_record.adb:15:7: V1 P.Left.all: constant view
package Pairs is
   type Int_Ptr is access Integer;
   type Pair is record
      Left, Right : Int_Ptr;
   end record;
   procedure Clear (P : Pair);
end Pairs;
package body Pairs is
   procedure Clear (P : Pair) is
   begin
      P.Left.all := 0;
   end Clear;
end Pairs;
