--  The first formal fits where it is copied back to, a cell; the second one doesn't. The position is
--  that of the end of the callee, and no formal is copied back.
--> spark run second_formal_outside.adb
--> status 3
--> out  3 1
--> err second_formal_outside.adb:20:4: raised Constraint_Error
package Divisions is
   type Cell is record
      Whole : Natural;
   end record;
   type Cell_Access is access Cell;
   procedure Divide (Left, Right : Integer; Quotient, Rest : out Integer);
end Divisions;

package body Divisions is
   procedure Divide (Left, Right : Integer; Quotient, Rest : out Integer) is
   begin
      Quotient := Left / Right;
      Rest := Left rem Right;
   end Divide;
end Divisions;

with Ada.Text_IO; use Ada.Text_IO;
with Divisions; use Divisions;
procedure Main is
   Owner : Cell_Access := new Cell'(Whole => 0);
   Left : Natural;
begin
   Divide (7, 2, Owner.Whole, Left);
   Put (Natural'Image (Owner.Whole));
   Put_Line (Natural'Image (Left));
   Divide (-1, 2, Owner.Whole, Left);
   Put_Line (Natural'Image (Owner.Whole));
end Main;
