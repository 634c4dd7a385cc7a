package body Stacks is
function Depth return Integer is begin return Top; end Depth;
procedure Push (S : in out Stack; V : Integer) is begin
S := new Cell'(V, S);
S.V := S.S.V;
end Push;
end Stacks;
