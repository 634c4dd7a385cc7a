--  A stack, with what `spark` reads alone.
--> spark check stack.adb
--> status 0
--> out accepted
with Ada.Unchecked_Deallocation;
package Stacks with SPARK_Mode is
   type Stack is private;
   procedure Push (S : in out Stack; E : Integer);
   procedure Pop (S : in out Stack; E : out Integer);
   function Is_Empty (S : Stack) return Boolean;
private
   type Cell;
   type Stack is access Cell;
   type Cell is record
      E    : Integer;
      Rest : Stack;
   end record;
end Stacks;

package body Stacks with SPARK_Mode is
   procedure Free is new Ada.Unchecked_Deallocation (Cell, Stack);
   procedure Push (S : in out Stack; E : Integer) is
   begin
      S := new Cell'(E, S);
   end Push;
   procedure Pop (S : in out Stack; E : out Integer) is
      Top : Stack := S;
   begin
      E := Top.E;
      S := Top.Rest;
      Free (Top);
   end Pop;
   function Is_Empty (S : Stack) return Boolean is
   begin
      return S = null;
   end Is_Empty;
end Stacks;

with Ada.Text_IO;
with Stacks; use Stacks;
procedure Main is
   S : Stack;
   N : Integer;
begin
   for I in 1 .. 10 loop
      Push (S, I);
   end loop;
   while not Is_Empty (S) loop
      Pop (S, N);
      Ada.Text_IO.Put (Integer'Image (N));
   end loop;
   Ada.Text_IO.New_Line;
end Main;
