package Stacks is
type Stack is private;
Top : Integer;
function Depth return Integer;
procedure Push (S : in out Stack; V : Integer);
private
type Cell;
type Stack is access Cell;
type Cell is record V : Integer; S : Stack; end record;
end Stacks;
