--  The result of each call is freed before the next one is assigned. To free null does nothing.
--> spark run result_is_freed.adb
--> status 0
--> out  9
package Boxes is
   type Int_Ptr is access Integer;
   function Boxed (Value : Integer) return Int_Ptr;
end Boxes;

package body Boxes is
   function Boxed (Value : Integer) return Int_Ptr is
   begin
      return new Integer'(Value);
   end Boxed;
end Boxes;

with Ada.Text_IO; use Ada.Text_IO;
with Ada.Unchecked_Deallocation;
with Boxes; use Boxes;
procedure Main is
   procedure Free is new Ada.Unchecked_Deallocation (Integer, Int_Ptr);
   Box : Int_Ptr;
begin
   for I in 1 .. 3 loop
      Free (Box);
      Box := Boxed (I * I);
   end loop;
   Put_Line (Integer'Image (Box.all));
   Free (Box);
end Main;
