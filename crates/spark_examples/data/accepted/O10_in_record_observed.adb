--  O10: a record with an observed part may be an in actual.
--> spark check O10_in_record_observed.adb
--> status 0
--> out accepted
package Pairs is
   type Int_Ptr is access Integer;
   type Pair is record
      Left, Right : Int_Ptr;
   end record;
   procedure Show (P : Pair);
end Pairs;
with Ada.Text_IO;
package body Pairs is
   procedure Show (P : Pair) is
   begin
      Ada.Text_IO.Put_Line (Integer'Image (P.Left.all + P.Right.all));
   end Show;
end Pairs;
with Pairs; use Pairs;
procedure Main is
   P : Pair := (new Integer'(1), new Integer'(2));
   N : Integer;
begin
   declare
      C : access constant Integer := P.Left;
   begin
      Show (P);
      N := C.all;
   end;
end Main;
