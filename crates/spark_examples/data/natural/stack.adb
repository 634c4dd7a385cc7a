--  A stack, as it is written in SPARK.
--> spark check stack.adb
--> status 2
--> err stack.adb:6:1: P3 construct left out
with Ada.Unchecked_Deallocation;
generic
   type Element is private;
package Stacks with SPARK_Mode is
   type Stack is private;
   procedure Push (S : in out Stack; E : Element);
   procedure Pop (S : in out Stack; E : out Element);
   function Is_Empty (S : Stack) return Boolean;
private
   type Cell;
   type Stack is access Cell;
   type Cell is record
      E    : Element;
      Rest : Stack;
   end record;
end Stacks;

package body Stacks with SPARK_Mode is
   procedure Free is new Ada.Unchecked_Deallocation (Cell, Stack);
   procedure Push (S : in out Stack; E : Element) is
   begin
      S := new Cell'(E, S);
   end Push;
   procedure Pop (S : in out Stack; E : out Element) is
      Top : Stack := S;
   begin
      E := Top.E;
      S := Top.Rest;
      Free (Top);
   end Pop;
   function Is_Empty (S : Stack) return Boolean is (S = null);
end Stacks;

with Ada.Text_IO;
with Stacks;
procedure Main is
   package Int_Stacks is new Stacks (Integer);
   use Int_Stacks;
   S : Stack;
   N : Integer;
begin
   for I in 1 .. 10 loop
      Push (S, I);
   end loop;
   while not Is_Empty (S) loop
      Pop (S, N);
      Ada.Text_IO.Put (Integer'Image (N));
   end loop;
   Ada.Text_IO.New_Line;
end Main;
