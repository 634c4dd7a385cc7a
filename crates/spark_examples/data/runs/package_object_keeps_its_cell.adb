--  The cell of the package object is freed before it gets another one. That one is still there at
--  the end: package objects have no end of their scope, so nothing is checked.
--> spark run package_object_keeps_its_cell.adb
--> status 0
--> out  2
with Ada.Unchecked_Deallocation;
package Store is
   type Int_Ptr is access Integer;
   procedure Free is new Ada.Unchecked_Deallocation (Integer, Int_Ptr);
   Last : Int_Ptr;
   procedure Keep (Value : Integer);
end Store;

package body Store is
   procedure Keep (Value : Integer) is
   begin
      Free (Last);
      Last := new Integer'(Value);
   end Keep;
end Store;

with Ada.Text_IO; use Ada.Text_IO;
with Store;
procedure Main is
begin
   Store.Keep (1);
   Store.Keep (2);
   Put_Line (Integer'Image (Store.Last.all));
end Main;
