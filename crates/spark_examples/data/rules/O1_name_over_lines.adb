--  O1: a report stands at the first token of the name, however the name is laid out.
--> spark check O1_name_over_lines.adb
--> status 1
--> err O1_name_over_lines.adb:14:7: O1 X.all: moved
with Ada.Unchecked_Deallocation;
procedure Main is
   type Int_Ptr is access Integer;
   X, Y : Int_Ptr;
   N    : Integer;
begin
   X := new Integer'(1);
   Y := X;
   N :=  --  the name begins on the next line
      X
      .  --  and goes on here
      all;
end Main;
