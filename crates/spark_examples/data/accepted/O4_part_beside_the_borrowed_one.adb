--  O4: a part beside the borrowed one may be moved.
--> spark check O4_part_beside_the_borrowed_one.adb
--> status 0
--> out accepted
procedure Main is
   type Node;
   type Tree is access Node;
   type Node is record
      Left, Right : Tree;
      Value       : Integer;
   end record;
   T    : Tree := new Node'(new Node'(null, null, 1), new Node'(null, null, 2), 3);
   Mine : Tree;
begin
   declare
      B : access Node := T.Left;
   begin
      Mine := T.Right;
      B.Value := Mine.Value;
   end;
   T.Right := Mine;
end Main;
