--  O7: the borrower goes on after a part that has a value again.
--> spark check O7_part_given_a_value.adb
--> status 0
--> out accepted
procedure Main is
   type Node;
   type Tree is access Node;
   type Node is record
      Left, Right : Tree;
      Value       : Integer;
   end record;
   T    : Tree := new Node'(new Node'(null, null, 1), new Node'(null, null, 2), 3);
   Mine : Tree;
begin
   declare
      B : access Node := T;
   begin
      Mine := B.Left;
      B.Left := null;
      B := B.Right;
      B.Value := Mine.Value;
   end;
end Main;
