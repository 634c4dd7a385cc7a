--  A list that is reversed, as it is written in SPARK.
--> spark check reverse.adb
--> status 2
--> err reverse.adb:14:31: P1 syntax
with Ada.Text_IO;
procedure Main with SPARK_Mode is
   type Cell;
   type List is access Cell;
   type Cell is record
      Data : Integer;
      Next : List;
   end record;

   procedure Reverse_In_Place (L : in out List) is
      Reversed : List := null;
      Rest     : List;
   begin
      while L /= null loop
         Rest := L.Next;
         L.Next := Reversed;
         Reversed := L;
         L := Rest;
      end loop;
      L := Reversed;
   end Reverse_In_Place;

   procedure Print (L : access constant Cell; Name : String := "list") is
      C : access constant Cell := L;
   begin
      Ada.Text_IO.Put (Name & ":");
      while C /= null loop
         Ada.Text_IO.Put (Integer'Image (C.Data));
         C := C.Next;
      end loop;
      Ada.Text_IO.New_Line;
   end Print;

   L : List := new Cell'(1, new Cell'(2, new Cell'(3, null)));
begin
   Print (L);
   Reverse_In_Place (L);
   Print (L, Name => "reversed");
end Main;
