--  K1: a private type is used through its package.
--> spark check K1_private_type.adb
--> status 0
--> out accepted
package Box is
   type Counter is private;
   procedure Reset (C : in out Counter);
private
   type Counter is record
      Count : Integer;
   end record;
end Box;
package body Box is
   procedure Reset (C : in out Counter) is
   begin
      C.Count := 0;
   end Reset;
end Box;
with Box;
procedure Main is
   C : Box.Counter;
begin
   Box.Reset (C);
end Main;
