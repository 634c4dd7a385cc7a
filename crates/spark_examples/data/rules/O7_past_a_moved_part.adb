--  O7 and O8: a borrower may not go on past a part that it moved away.
--> spark check O7_past_a_moved_part.adb
--> status 1
--> err O7_past_a_moved_part.adb:20:7: O7 B: moved
--> err O7_past_a_moved_part.adb:22:4: O8 B.all.Left: moved
procedure Main is
   type Node;
   type Tree is access Node;
   type Node is record
      Left, Right : Tree;
      Value       : Integer;
   end record;
   T    : Tree := new Node'(new Node'(null, null, 1), new Node'(null, null, 2), 3);
   Mine : Tree;
begin
   declare
      B : access Node := T;
   begin
      Mine := B.Left;
      B := B.Right;
      B.Value := Mine.Value;
   end;
end Main;
