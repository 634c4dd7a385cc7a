--  O11: a call may read a package object that is observed.
--> spark check O11_read_while_observed.adb
--> status 0
--> out accepted
package Store is
   type Int_Ptr is access Integer;
   Kept : Int_Ptr;
   procedure Replace (N : Integer);
   procedure Show;
end Store;
with Ada.Text_IO;
package body Store is
   procedure Replace (N : Integer) is
   begin
      Kept := new Integer'(N);
   end Replace;
   procedure Show is
   begin
      if Kept /= null then
         Ada.Text_IO.Put_Line (Integer'Image (Kept.all));
      end if;
   end Show;
end Store;
with Ada.Text_IO;
with Store; use Store;
procedure Main is
begin
   Replace (7);
   declare
      C : access constant Integer := Kept;
   begin
      Show;
      Ada.Text_IO.Put_Line (Integer'Image (C.all));
   end;
end Main;
