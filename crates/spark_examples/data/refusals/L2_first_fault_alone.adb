--  L2: the first fault of the text is given, and no other.
--> spark check L2_first_fault_alone.adb
--> status 2
--> err L2_first_fault_alone.adb:7:4: L2 bad identifier
with Ada.Unchecked_Deallocation;
procedure Main is
   N__ : Integer;
begin
   N__ := 1__ ?;
end Main;
