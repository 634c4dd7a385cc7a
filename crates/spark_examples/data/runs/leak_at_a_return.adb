--  A function returns before it frees the cell that it made.
--> spark run leak_at_a_return.adb
--> status 5
--> out  1
--> out  0
--> err leak_at_a_return.adb:20:10: leak of cell 1
package Signs is
   function Sign (N : Integer) return Integer;
end Signs;

with Ada.Unchecked_Deallocation;
package body Signs is
   type Int_Ptr is access Integer;
   procedure Free is new Ada.Unchecked_Deallocation (Integer, Int_Ptr);

   function Sign (N : Integer) return Integer is
      P : Int_Ptr := new Integer'(N);
   begin
      if P.all > 0 then
         return 1;
      end if;
      Free (P);
      return 0;
   end Sign;
end Signs;

with Ada.Text_IO; use Ada.Text_IO;
with Signs; use Signs;
procedure Main is
begin
   Put_Line (Integer'Image (Sign (7)));
   Put_Line (Integer'Image (Sign (0)));
end Main;
