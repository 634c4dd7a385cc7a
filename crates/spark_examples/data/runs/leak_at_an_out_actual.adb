--  A formal of mode out begins as null, so what the actual owned is lost at the call.
--> spark run leak_at_an_out_actual.adb
--> status 5
--> out  1
--> out  2
--> err leak_at_an_out_actual.adb:28:13: leak of cell 1
package Makers is
   type Int_Ptr is access Integer;
   procedure Make (Value : Integer; Made : out Int_Ptr);
end Makers;

package body Makers is
   procedure Make (Value : Integer; Made : out Int_Ptr) is
   begin
      Made := new Integer'(Value);
   end Make;
end Makers;

with Ada.Text_IO; use Ada.Text_IO;
with Ada.Unchecked_Deallocation;
with Makers; use Makers;
procedure Main is
   procedure Free is new Ada.Unchecked_Deallocation (Integer, Int_Ptr);
   P : Int_Ptr;
begin
   Make (1, P);
   Put_Line (Integer'Image (P.all));
   Make (2, P);
   Put_Line (Integer'Image (P.all));
   Free (P);
end Main;
