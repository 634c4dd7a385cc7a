--  The cell is freed before the one return of the function.
--> spark run freed_before_the_return.adb
--> status 0
--> out  1
--> out  0
package Signs is
   function Sign (N : Integer) return Integer;
end Signs;

with Ada.Unchecked_Deallocation;
package body Signs is
   type Int_Ptr is access Integer;
   procedure Free is new Ada.Unchecked_Deallocation (Integer, Int_Ptr);

   function Sign (N : Integer) return Integer is
      P      : Int_Ptr := new Integer'(N);
      Result : Integer := 0;
   begin
      if P.all > 0 then
         Result := 1;
      end if;
      Free (P);
      return Result;
   end Sign;
end Signs;

with Ada.Text_IO; use Ada.Text_IO;
with Signs; use Signs;
procedure Main is
begin
   Put_Line (Integer'Image (Sign (7)));
   Put_Line (Integer'Image (Sign (0)));
end Main;
