--  The actual is null again before it is given to the second call.
--> spark run freed_before_the_out_actual.adb
--> status 0
--> out  1
--> out  2
package Makers is
   type Int_Ptr is access Integer;
   procedure Make (Value : Integer; Made : out Int_Ptr);
end Makers;

package body Makers is
   procedure Make (Value : Integer; Made : out Int_Ptr) is
   begin
      Made := new Integer'(Value);
   end Make;
end Makers;

with Ada.Text_IO; use Ada.Text_IO;
with Ada.Unchecked_Deallocation;
with Makers; use Makers;
procedure Main is
   procedure Free is new Ada.Unchecked_Deallocation (Integer, Int_Ptr);
   P : Int_Ptr;
begin
   Make (1, P);
   Put_Line (Integer'Image (P.all));
   Free (P);
   Make (2, P);
   Put_Line (Integer'Image (P.all));
   Free (P);
end Main;
