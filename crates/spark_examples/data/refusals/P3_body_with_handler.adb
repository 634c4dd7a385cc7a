--  P3: the body of a package has an exception handler.
--> spark check P3_body_with_handler.adb
--> status 2
--> err P3_body_with_handler.adb:18:4: P3 construct left out
package Logs is
   type Int_Ptr is access Integer;
   procedure Log (N : in out Int_Ptr);
end Logs;
with Ada.Text_IO;
with Ada.Unchecked_Deallocation;
package body Logs is
   procedure Free is new Ada.Unchecked_Deallocation (Integer, Int_Ptr);

   procedure Log (N : in out Int_Ptr) is
   begin
      Ada.Text_IO.Put_Line (Integer'Image (N.all));
      Free (N);
   exception
      when others =>
         Free (N);
   end Log;
end Logs;
with Logs; use Logs;
procedure Main is
   N : Int_Ptr := new Integer'(7);
begin
   Log (N);
end Main;
