--  P1: a program with most of the statements and declarations of the grammar.
--> spark check P1_most_of_the_grammar.adb
--> status 0
--> out accepted
pragma SPARK_Mode (On);
with Ada.Text_IO;
with Ada.Integer_Text_IO;
with Ada.Unchecked_Deallocation;
use Ada.Text_IO;
procedure Main with SPARK_Mode => On is
   use type Integer;
   Size : constant := 4;
   type Colour is (Red, Green, Blue);
   subtype Index is Integer range 1 .. Size;
   type Row is array (Index) of Integer;
   type Cell;
   type Link is access Cell;
   type Cell is record
      Value, Weight : Integer;
      Next : Link;
   end record;
   procedure Free is new Ada.Unchecked_Deallocation (Cell, Link);
   Values : Row := (1, 2, 3, 4);
   First, Second : Link;
   Shade : Colour := Red;
   Total : Integer := 0;
   Done : Boolean;
begin
   First := new Cell'(Value => 1, Weight => 2, Next => null);
   First.all.Value := -Values (1) + Values (2) * 3 mod 4;
   for I in Values'Range loop
      Total := Total + Values (I);
   end loop;
   for I in reverse Index range 1 .. 2 loop
      exit when Total > 10 or else not (Total /= 5);
      Total := abs Total;
   end loop;
   while Total < 20 loop
      Total := Total + 1;
      if Total = 19 then
         null;
      elsif Total = 18 and then Done then
         exit;
      else
         Total := Total + 1;
      end if;
   end loop;
   case Shade is
      when Red | Green =>
         Shade := Blue;
      when others =>
         null;
   end case;
   declare
      Other : Integer := Integer'Last;
   begin
      Other := Other rem 7;
      Put_Line ("other" & Integer'Image (Other));
   end;
   loop
      exit;
   end loop;
   Second := First;
   Free (Second);
   return;
end Main;
