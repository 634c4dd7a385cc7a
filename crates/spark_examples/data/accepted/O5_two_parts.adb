--  O5: two objects may borrow two parts that don't overlap.
--> spark check O5_two_parts.adb
--> status 0
--> out accepted
procedure Main is
   type Node;
   type Tree is access Node;
   type Node is record
      Left, Right : Tree;
      Value       : Integer;
   end record;
   T : Tree := new Node'(new Node'(null, null, 1), new Node'(null, null, 2), 3);
begin
   declare
      B : access Node := T.Left;
      C : access Node := T.Right;
   begin
      B.Value := C.Value;
      C.Value := 4;
   end;
end Main;
