--  O11: no call may write a package object that is observed, not even by a chain of calls.
--> spark check O11_written_while_observed.adb
--> status 1
--> err O11_written_while_observed.adb:29:7: O11 Store.Kept: observed
package Store is
   type Int_Ptr is access Integer;
   Kept : Int_Ptr;
   procedure Replace (N : Integer);
   procedure Clear;
end Store;
package body Store is
   procedure Replace (N : Integer) is
   begin
      Kept := new Integer'(N);
   end Replace;
   procedure Clear is
   begin
      Replace (0);
   end Clear;
end Store;
with Ada.Text_IO;
with Store; use Store;
procedure Main is
begin
   Replace (7);
   declare
      C : access constant Integer := Kept;
   begin
      Clear;
      Ada.Text_IO.Put_Line (Integer'Image (C.all));
   end;
end Main;
