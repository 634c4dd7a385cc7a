with Stacks;
procedure Main is
S : Stacks.Stack;
begin
Stacks.Push (V => Stacks.Depth, S => S);
Stacks.Top := Stacks.Depth;
end Main;
