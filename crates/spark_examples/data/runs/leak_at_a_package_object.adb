--  The second call overwrites what the first one put into the package object.
--> spark run leak_at_a_package_object.adb
--> status 5
--> out  2
--> err leak_at_a_package_object.adb:15:7: leak of cell 1
package Store is
   type Int_Ptr is access Integer;
   Last : Int_Ptr;
   procedure Keep (Value : Integer);
end Store;

package body Store is
   procedure Keep (Value : Integer) is
   begin
      Last := new Integer'(Value);
   end Keep;
end Store;

with Ada.Text_IO; use Ada.Text_IO;
with Store;
procedure Main is
begin
   Store.Keep (1);
   Store.Keep (2);
   Put_Line (Integer'Image (Store.Last.all));
end Main;
