--  P3: the body of a package whose own body has an exception handler, as it is given to `spark`.
--> spark check P3_simpler_body.adb
--> status 0
--> out accepted
package Logs is
   type Int_Ptr is access Integer;
   --  Writes a number and frees it. Where that fails nothing is written, and it is freed all the same.
   procedure Log (N : in out Int_Ptr);
end Logs;
with Ada.Text_IO;
with Ada.Unchecked_Deallocation;
package body Logs is
   procedure Free is new Ada.Unchecked_Deallocation (Integer, Int_Ptr);

   procedure Log (N : in out Int_Ptr) is
   begin
      Ada.Text_IO.Put_Line (Integer'Image (N.all));
      Free (N);
   end Log;
end Logs;
with Logs; use Logs;
procedure Main is
   N : Int_Ptr := new Integer'(7);
begin
   Log (N);
end Main;
