package P is
type Ptr is access Integer;
procedure Put_In (Target : in out Ptr; Value, Twice : Integer);
function Half (X : Integer) return Integer;
end P;
package body P is
procedure Put_In (Target : in out Ptr; Value, Twice : Integer) is begin
Target.all := Half (Value) + Twice;
end Put_In;
function Half (X : Integer) return Integer is begin return X / 2; end Half;
end P;
with P; use P;
procedure Main is
A : Ptr;
begin
Put_In (Twice => Half (1), target => A, Value => Half (X => Half (3)));
end Main;
