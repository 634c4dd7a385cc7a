--  O1: a report changes no fact, so each read is reported until the name has a new value.
--> spark check O1_facts_go_on.adb
--> status 1
--> err O1_facts_go_on.adb:14:9: O1 X.all: moved
--> err O1_facts_go_on.adb:15:9: O1 X.all: moved
with Ada.Unchecked_Deallocation;
procedure Main is
   type Int_Ptr is access Integer;
   X, Y : Int_Ptr;
   M, N : Integer;
begin
   X := new Integer'(1);
   Y := X;
   M := X.all;
   N := X.all;
   X := new Integer'(2);
   N := X.all;
end Main;
