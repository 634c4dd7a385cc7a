--  The numbers of the input become a list, which is added up and freed.
--> spark run reads_to_the_end.adb
--> status 0
--> in 1 2
--> in 3
--> in   4
--> out  10
with Ada.Integer_Text_IO; use Ada.Integer_Text_IO;
with Ada.Text_IO; use Ada.Text_IO;
with Ada.Unchecked_Deallocation;
procedure Main is
   type Cell;
   type List is access Cell;
   type Cell is record
      Value : Integer;
      Next  : List;
   end record;
   procedure Free is new Ada.Unchecked_Deallocation (Cell, List);
   L   : List;
   Old : List;
   N   : Integer;
   Sum : Integer := 0;
begin
   while not End_Of_File loop
      Get (N);
      L := new Cell'(N, L);
   end loop;
   declare
      C : access constant Cell := L;
   begin
      while C /= null loop
         Sum := Sum + C.Value;
         C := C.Next;
      end loop;
   end;
   Put_Line (Integer'Image (Sum));
   while L /= null loop
      Old := L;
      L := Old.Next;
      Free (Old);
   end loop;
end Main;
