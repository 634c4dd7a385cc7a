--  The result of a function is a cell, too: it is assigned over the result of the call before.
--> spark run leak_of_a_result.adb
--> status 5
--> out  9
--> err leak_of_a_result.adb:27:7: leak of cell 1
--> err leak_of_a_result.adb:27:7: leak of cell 2
package Boxes is
   type Int_Ptr is access Integer;
   function Boxed (Value : Integer) return Int_Ptr;
end Boxes;

package body Boxes is
   function Boxed (Value : Integer) return Int_Ptr is
   begin
      return new Integer'(Value);
   end Boxed;
end Boxes;

with Ada.Text_IO; use Ada.Text_IO;
with Ada.Unchecked_Deallocation;
with Boxes; use Boxes;
procedure Main is
   procedure Free is new Ada.Unchecked_Deallocation (Integer, Int_Ptr);
   Box : Int_Ptr;
begin
   for I in 1 .. 3 loop
      Box := Boxed (I * I);
   end loop;
   Put_Line (Integer'Image (Box.all));
   Free (Box);
end Main;
