--  A2: a procedure changes an array that it was also given, under another name.
--> spark check A2_halved_by_itself.adb
--> status 1
--> err A2_halved_by_itself.adb:22:12: A2 Rows.Kept: overlaps a global of the callee
package Rows is
   type Row is array (1 .. 5) of Integer;
   Kept : Row := (2, 4, 6, 8, 10);
   procedure Divide (By : Row);
end Rows;
package body Rows is
   procedure Divide (By : Row) is
   begin
      for I in 1 .. 5 loop
         Kept (I) := Kept (I) / By (1);
      end loop;
   end Divide;
end Rows;
with Ada.Text_IO;
with Rows; use Rows;
procedure Main is
begin
   Divide (Kept);
   for I in 1 .. 5 loop
      Ada.Text_IO.Put (Integer'Image (Kept (I)));
   end loop;
   Ada.Text_IO.New_Line;
end Main;
