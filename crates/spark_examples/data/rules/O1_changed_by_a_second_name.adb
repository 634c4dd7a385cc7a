--  O1: the old name would see each change through the new one.
--> spark check O1_changed_by_a_second_name.adb
--> status 1
--> err O1_changed_by_a_second_name.adb:13:22: O1 Limit.all: moved
with Ada.Text_IO;
procedure Main is
   type Int_Ptr is access Integer;
   Limit : Int_Ptr := new Integer'(10);
   Count : Int_Ptr;
begin
   Count := Limit;
   Count.all := 0;
   while Count.all < Limit.all loop
      Count.all := Count.all + 1;
   end loop;
   Ada.Text_IO.Put_Line (Integer'Image (Count.all));
end Main;
