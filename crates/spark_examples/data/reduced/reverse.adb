--  A list that is reversed, with what `spark` reads alone.
--> spark check reverse.adb
--> status 0
--> out accepted
with Ada.Text_IO;
package Lib with SPARK_Mode is
   type Cell;
   type List is access Cell;
   type Cell is record
      Data : Integer;
      Next : List;
   end record;

   procedure Reverse_In_Place (L : in out List);
   procedure Print (L : List);
end Lib;
package body Lib with SPARK_Mode is
   procedure Reverse_In_Place (L : in out List) is
      Reversed : List := null;
      Rest     : List;
   begin
      while L /= null loop
         Rest := L.Next;
         L.Next := Reversed;
         Reversed := L;
         L := Rest;
      end loop;
      L := Reversed;
   end Reverse_In_Place;

   procedure Print (L : List) is
      C : access constant Cell := L;
   begin
      while C /= null loop
         Ada.Text_IO.Put (Integer'Image (C.Data));
         C := C.Next;
      end loop;
      Ada.Text_IO.New_Line;
   end Print;

end Lib;
with Ada.Text_IO;
with Lib; use Lib;
procedure Main with SPARK_Mode is
   L : List := new Cell'(1, new Cell'(2, new Cell'(3, null)));
begin
   Ada.Text_IO.Put ("list:");
   Print (L);
   Reverse_In_Place (L);
   Ada.Text_IO.Put ("reversed:");
   Print (L);
end Main;
