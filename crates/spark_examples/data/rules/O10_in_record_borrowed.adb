--  O10: a record with a borrowed part may not be an in actual.
--> spark check O10_in_record_borrowed.adb
--> status 1
--> err O10_in_record_borrowed.adb:26:13: O10 P: borrowed
package Pairs is
   type Int_Ptr is access Integer;
   type Pair is record
      Left, Right : Int_Ptr;
   end record;
   procedure Show (P : Pair);
end Pairs;
with Ada.Text_IO;
package body Pairs is
   procedure Show (P : Pair) is
   begin
      Ada.Text_IO.Put_Line (Integer'Image (P.Left.all + P.Right.all));
   end Show;
end Pairs;
with Pairs; use Pairs;
procedure Main is
   P : Pair := (new Integer'(1), new Integer'(2));
begin
   declare
      B : access Integer := P.Left;
   begin
      Show (P);
      B.all := 3;
   end;
end Main;
