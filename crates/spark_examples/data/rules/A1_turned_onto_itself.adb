--  A1: one array is read and written under two names.
--> spark check A1_turned_onto_itself.adb
--> status 1
--> err A1_turned_onto_itself.adb:22:13: A1 R: overlaps another actual
package Rows is
   type Row is array (1 .. 5) of Integer;
   procedure Turn (From : Row; To : in out Row);
end Rows;
package body Rows is
   procedure Turn (From : Row; To : in out Row) is
   begin
      for I in 1 .. 5 loop
         To (I) := From (6 - I);
      end loop;
   end Turn;
end Rows;
with Ada.Text_IO;
with Rows; use Rows;
procedure Main is
   R : Row := (1, 2, 3, 4, 5);
begin
   Turn (R, R);
   for I in 1 .. 5 loop
      Ada.Text_IO.Put (Integer'Image (R (I)));
   end loop;
   Ada.Text_IO.New_Line;
end Main;
