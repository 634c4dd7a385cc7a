--  K1: outside of its package a private type has no components.
--> spark check K1_private_component.adb
--> status 2
--> err K1_private_component.adb:23:4: K1 wrong type
package Box is
   type Counter is private;
   procedure Reset (C : in out Counter);
private
   type Counter is record
      Count : Integer;
   end record;
end Box;
package body Box is
   procedure Reset (C : in out Counter) is
   begin
      C.Count := 0;
   end Reset;
end Box;
with Box;
procedure Main is
   C : Box.Counter;
begin
   C.Count := 0;
end Main;
