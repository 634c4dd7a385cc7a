--  A loop frees each cell once the rest of the list was moved out of it.
--> spark leaks drain.adb
--> status 0
--> out drain.adb:22:7: Old checked
--> out drain.adb:23:7: L excused
--> out drain.adb:24:13: Old.all.Next excused
--> out drain.adb:26:1: L checked
--> out drain.adb:26:1: Old checked
with Ada.Unchecked_Deallocation;
procedure Drain is
   type Cell;
   type List is access Cell;
   type Cell is record
      Value : Integer;
      Next  : List;
   end record;
   procedure Free is new Ada.Unchecked_Deallocation (Cell, List);
   L   : List := new Cell'(1, new Cell'(2, null));
   Old : List;
begin
   while L /= null loop
      Old := L;
      L := Old.Next;
      Free (Old);
   end loop;
end Drain;
