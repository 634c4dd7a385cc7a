--  A list of lists, as it is written in SPARK.
--> spark check list_of_lists.adb
--> status 2
--> err list_of_lists.adb:23:25: P1 syntax
with Ada.Unchecked_Deallocation;
with Ada.Text_IO; use Ada.Text_IO;
procedure Main with SPARK_Mode is
   type Item;
   type Item_List is access Item;
   type Item is record
      Value : Integer;
      Next  : Item_List;
   end record;
   type Row;
   type Row_List is access Row;
   type Row is record
      Items : Item_List;
      Next  : Row_List;
   end record;
   procedure Free is new Ada.Unchecked_Deallocation (Item, Item_List);
   procedure Free is new Ada.Unchecked_Deallocation (Row, Row_List);

   procedure Free_Items (L : in out Item_List) is
   begin
      while L /= null loop
         declare
            Rest : constant Item_List := L.Next;
         begin
            Free (L);
            L := Rest;
         end;
      end loop;
   end Free_Items;

   procedure Free_Rows (R : in out Row_List) is
      Old : Row_List;
   begin
      while R /= null loop
         Old := R;
         R := R.Next;
         Free_Items (Old.Items);
         Free (Old);
      end loop;
   end Free_Rows;

   function Sum (R : access constant Row) return Integer is
      Total : Integer := 0;
      A : access constant Row := R;
   begin
      while A /= null loop
         declare
            B : access constant Item := A.Items;
         begin
            while B /= null loop
               Total := Total + B.Value;
               B := B.Next;
            end loop;
         end;
         A := A.Next;
      end loop;
      return Total;
   end Sum;

   R : Row_List;
begin
   Outer :
   for I in 1 .. 3 loop
      R := new Row'(null, R);
      for J in 1 .. I loop
         exit Outer when J > 10;
         R.Items := new Item'(I * J, R.Items);
      end loop;
   end loop Outer;
   Put_Line ("sum" & Integer'Image (Sum (R)));
   Free_Rows (R);
end Main;
