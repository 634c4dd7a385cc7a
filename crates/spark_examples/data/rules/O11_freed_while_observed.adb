--  O11: a callee frees a package object that the caller observes.
--> spark check O11_freed_while_observed.adb
--> status 1
--> err O11_freed_while_observed.adb:23:4: O11 Store.Kept: observed
package Store is
   type Int_Ptr is access Integer;
   Kept : Int_Ptr := new Integer'(7);
   procedure Clear;
end Store;
with Ada.Unchecked_Deallocation;
package body Store is
   procedure Free is new Ada.Unchecked_Deallocation (Integer, Int_Ptr);
   procedure Clear is
   begin
      Free (Kept);
   end Clear;
end Store;
with Ada.Text_IO;
with Store; use Store;
procedure Main is
   C : access constant Integer := Kept;
begin
   Clear;
   Ada.Text_IO.Put_Line (Integer'Image (C.all));
end Main;
