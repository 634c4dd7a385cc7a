--  A list of lists, with what `spark` reads alone.
--> spark check list_of_lists.adb
--> status 0
--> out accepted
with Ada.Unchecked_Deallocation;
with Ada.Text_IO; use Ada.Text_IO;
package Rows with SPARK_Mode is
   type Item;
   type Item_List is access Item;
   type Item is record
      Value : Integer;
      Next  : Item_List;
   end record;
   type Row;
   type Row_List is access Row;
   type Row is record
      Items : Item_List;
      Next  : Row_List;
   end record;
   procedure Free is new Ada.Unchecked_Deallocation (Item, Item_List);
   procedure Free_Row is new Ada.Unchecked_Deallocation (Row, Row_List);

   procedure Free_Items (L : in out Item_List);
   procedure Free_Rows (R : in out Row_List);
   function Sum (R : Row_List) return Integer;
end Rows;
package body Rows with SPARK_Mode is
   procedure Free_Items (L : in out Item_List) is
   begin
      while L /= null loop
         declare
            Rest : Item_List := L.Next;
         begin
            Free (L);
            L := Rest;
         end;
      end loop;
   end Free_Items;

   procedure Free_Rows (R : in out Row_List) is
      Old : Row_List;
   begin
      while R /= null loop
         Old := R;
         R := Old.Next;
         Free_Items (Old.Items);
         Free_Row (Old);
      end loop;
   end Free_Rows;

   function Sum (R : Row_List) return Integer is
      Total : Integer := 0;
      A : access constant Row := R;
   begin
      while A /= null loop
         declare
            B : access constant Item := A.Items;
         begin
            while B /= null loop
               Total := Total + B.Value;
               B := B.Next;
            end loop;
         end;
         A := A.Next;
      end loop;
      return Total;
   end Sum;

end Rows;
with Ada.Text_IO; use Ada.Text_IO;
with Rows; use Rows;
procedure Main with SPARK_Mode is
   R : Row_List;
begin
   for I in 1 .. 3 loop
      R := new Row'(null, R);
      for J in 1 .. I loop
         exit when J > 10;
         R.Items := new Item'(I * J, R.Items);
      end loop;
   end loop;
   Put_Line ("sum" & Integer'Image (Sum (R)));
   Free_Rows (R);
end Main;
